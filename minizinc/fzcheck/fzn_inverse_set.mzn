% FlatZinc counts an array from 1, so the least index that it has here is kept beside it.
predicate gecode_inverse_set(array [int] of var set of int: f, array [int] of var set of int: invf, int: first, int: first_inv);

predicate fzn_inverse_set(array [int] of var set of int: f, array [int] of var set of int: invf) =
  if length(f) = 0 \/ length(invf) = 0 then
    forall (s in f) (card(s) = 0) /\ forall (s in invf) (card(s) = 0)
  else gecode_inverse_set(f, invf, min(index_set(f)), min(index_set(invf)))
  endif;
