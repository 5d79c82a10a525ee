% Kept as it is: docs/BUILTINS.md of fzcheck says what it means.
predicate fzn_lex_lesseq_int(array [int] of var int: x, array [int] of var int: y);
