% Kept as it is: docs/BUILTINS.md of fzcheck says what it means.
predicate fzn_sliding_sum(int: low, int: up, int: seq, array [int] of var int: vs);
