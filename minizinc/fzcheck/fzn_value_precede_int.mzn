% Kept as it is: docs/BUILTINS.md of fzcheck says what it means.
predicate fzn_value_precede_int(int: s, int: t, array [int] of var int: x);
