% Kept as it is: docs/BUILTINS.md of fzcheck says what it means.
predicate fzn_among(var int: n, array [int] of var int: x, set of int: v);
