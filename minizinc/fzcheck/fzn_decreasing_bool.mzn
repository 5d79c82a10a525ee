% Kept as it is: docs/BUILTINS.md of fzcheck says what it means.
predicate fzn_decreasing_bool(array [int] of var bool: x);
