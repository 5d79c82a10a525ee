% Kept as it is: docs/BUILTINS.md of fzcheck says what it means.
predicate fzn_bin_packing(int: c, array [int] of var int: bin, array [int] of int: w);
