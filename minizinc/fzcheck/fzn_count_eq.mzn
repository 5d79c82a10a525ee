% Kept as it is: docs/BUILTINS.md of fzcheck says what it means.
predicate fzn_count_eq(array [int] of var int: x, var int: y, var int: c);
