% Kept as it is: docs/BUILTINS.md of fzcheck says what it means.
predicate fzn_all_different_int(array [int] of var int: x);
