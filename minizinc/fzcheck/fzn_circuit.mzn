% FlatZinc counts an array from 1, so the least index that it has here is kept beside it.
predicate fzcheck_circuit(int: first, array [int] of var int: x);

predicate fzn_circuit(array [int] of var int: x) =
  if length(x) = 0 then true
  else fzcheck_circuit(min(index_set(x)), x)
  endif;
