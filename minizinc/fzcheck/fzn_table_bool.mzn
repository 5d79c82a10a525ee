% Kept as it is: docs/BUILTINS.md of fzcheck says what it means.
predicate fzn_table_bool(array [int] of var bool: x, array [int,int] of bool: t);
