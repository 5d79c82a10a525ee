% Kept as it is: docs/BUILTINS.md of fzcheck says what it means.
predicate fzn_at_least_int(int: n, array [int] of var int: x, int: v);
