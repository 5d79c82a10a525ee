% Kept as it is: docs/BUILTINS.md of fzcheck says what it means.
predicate fzn_table_int(array [int] of var int: x, array [int,int] of int: t);
