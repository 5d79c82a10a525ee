% Kept as it is: docs/BUILTINS.md of fzcheck says what it means.
predicate fzn_all_equal_int(array [int] of var int: x);
