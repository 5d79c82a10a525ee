% Kept as it is: docs/BUILTINS.md of fzcheck says what it means.
predicate fzn_exactly_int(int: n, array [int] of var int: x, int: v);
