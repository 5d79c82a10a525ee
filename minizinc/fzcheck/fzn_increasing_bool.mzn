% Kept as it is: docs/BUILTINS.md of fzcheck says what it means.
predicate fzn_increasing_bool(array [int] of var bool: x);
