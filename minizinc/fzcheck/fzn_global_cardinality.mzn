% Kept as it is: docs/BUILTINS.md of fzcheck says what it means.
predicate fzn_global_cardinality(array [int] of var int: x, array [int] of int: cover, array [int] of var int: counts);
