% FlatZinc counts an array from 1, so the least index that it has here is kept beside it.
predicate gecode_int_set_channel(array [int] of var int: x, int: first, array [int] of var set of int: y, int: first_y);

predicate fzn_int_set_channel(array [int] of var int: x, array [int] of var set of int: y) =
  if length(x) = 0 \/ length(y) = 0 then length(x) = 0 /\ forall (t in y) (card(t) = 0)
  else gecode_int_set_channel(x, min(index_set(x)), y, min(index_set(y)))
  endif;
