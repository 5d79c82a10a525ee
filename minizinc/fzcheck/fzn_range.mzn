% FlatZinc counts an array from 1, so the least index that it has here is kept beside it.
predicate gecode_range(array [int] of var int: x, int: first, var set of int: s, var set of int: t);

predicate fzn_range(array [int] of var int: x, var set of int: s, var set of int: t) =
  if length(x) = 0 then card(s) = 0 /\ card(t) = 0
  else gecode_range(x, min(index_set(x)), s, t)
  endif;
