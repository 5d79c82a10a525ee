% FlatZinc counts an array from 1, so the least index that it has here is kept beside it.
predicate gecode_maximum_arg_int_offset(array [int] of var int: x, int: first, var int: i);

predicate fzn_maximum_arg_int(array [int] of var int: x, var int: i) =
  if length(x) = 0 then false
  else gecode_maximum_arg_int_offset(x, min(index_set(x)), i)
  endif;
