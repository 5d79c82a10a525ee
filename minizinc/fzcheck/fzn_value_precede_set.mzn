% The same constraint by the name and the order of arguments that docs/BUILTINS.md of fzcheck has.
predicate gecode_precede_set(array [int] of var set of int: x, int: s, int: t);

predicate fzn_value_precede_set(int: s, int: t, array [int] of var set of int: x) =
  gecode_precede_set(x, s, t);
