% Kept as it is: docs/BUILTINS.md of fzcheck says what it means.
predicate fzn_seq_precede_chain_int(array [int] of var int: x);
