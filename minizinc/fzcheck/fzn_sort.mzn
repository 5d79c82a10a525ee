% Kept as it is: docs/BUILTINS.md of fzcheck says what it means.
predicate fzn_sort(array [int] of var int: x, array [int] of var int: y);
