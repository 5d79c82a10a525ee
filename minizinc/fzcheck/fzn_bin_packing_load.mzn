% FlatZinc counts an array from 1, so the least index that it has here is kept beside it.
predicate fzcheck_bin_packing_load(array [int] of var int: load, array [int] of var int: bin, array [int] of int: w, int: first);

predicate fzn_bin_packing_load(array [int] of var int: load, array [int] of var int: bin, array [int] of int: w) =
  if length(load) = 0 then length(bin) = 0
  else fzcheck_bin_packing_load(load, bin, w, min(index_set(load)))
  endif;
