% Kept as it is: docs/BUILTINS.md of fzcheck says what it means.
predicate fzn_partition_set(array [int] of var set of int: s, set of int: universe);
