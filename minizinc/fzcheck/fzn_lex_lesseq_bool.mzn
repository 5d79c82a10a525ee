% Kept as it is: docs/BUILTINS.md of fzcheck says what it means.
predicate fzn_lex_lesseq_bool(array [int] of var bool: x, array [int] of var bool: y);
