% Kept as it is: docs/BUILTINS.md of fzcheck says what it means.
predicate fzn_knapsack(array [int] of int: w, array [int] of int: p, array [int] of var int: x, var int: W, var int: P);
