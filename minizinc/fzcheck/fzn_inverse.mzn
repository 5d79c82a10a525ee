% FlatZinc counts an array from 1, so the least index that it has here is kept beside it.
predicate inverse_offsets(array [int] of var int: f, int: first, array [int] of var int: g, int: first_g);

predicate fzn_inverse(array [int] of var int: f, array [int] of var int: invf) =
  if length(f) = 0 \/ length(invf) = 0 then length(f) = length(invf)
  else inverse_offsets(f, min(index_set(invf)), invf, min(index_set(f)))
  endif;
