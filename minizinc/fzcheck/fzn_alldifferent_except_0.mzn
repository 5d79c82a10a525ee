% Kept as it is: docs/BUILTINS.md of fzcheck says what it means.
predicate fzn_alldifferent_except_0(array [int] of var int: vs);
