% Kept as it is: docs/BUILTINS.md of fzcheck says what it means.
predicate fzn_disjunctive_strict(array [int] of var int: s, array [int] of var int: d);
