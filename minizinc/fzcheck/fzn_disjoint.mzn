% Kept as it is: docs/BUILTINS.md of fzcheck says what it means.
predicate fzn_disjoint(var set of int: s1, var set of int: s2);
