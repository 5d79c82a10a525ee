% FlatZinc counts an array from 1, so the least index that it has here is kept beside it. Of no
% position it is false, as in the standard library.
predicate fzcheck_subcircuit(int: first, array [int] of var int: x);

predicate fzn_subcircuit(array [int] of var int: x) =
  if length(x) = 0 then false
  else fzcheck_subcircuit(min(index_set(x)), x)
  endif;
