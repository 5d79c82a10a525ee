% Kept as it is: docs/BUILTINS.md of fzcheck says what it means.
predicate fzn_strictly_increasing_int(array [int] of var int: x);
