% FlatZinc counts an array from 1, so the least index that it has here is kept beside it.
predicate gecode_link_set_to_booleans(var set of int: s, array [int] of var bool: b, int: first);

predicate fzn_link_set_to_booleans(var set of int: s, array [int] of var bool: b) =
  if length(b) = 0 then card(s) = 0
  else gecode_link_set_to_booleans(s, b, min(index_set(b)))
  endif;
