% Kept as it is: docs/BUILTINS.md of fzcheck says what it means.
predicate fzn_cumulative(array [int] of var int: s, array [int] of var int: d, array [int] of var int: r, var int: b);
