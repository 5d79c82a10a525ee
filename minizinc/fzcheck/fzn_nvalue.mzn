% Kept as it is: docs/BUILTINS.md of fzcheck says what it means.
predicate fzn_nvalue(var int: n, array [int] of var int: x);
