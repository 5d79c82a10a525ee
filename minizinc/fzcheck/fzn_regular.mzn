% Kept as it is: docs/BUILTINS.md of fzcheck says what it means.
predicate fzn_regular(array [int] of var int: x, int: q, int: s, array [int,int] of int: d, int: q0, set of int: f);
