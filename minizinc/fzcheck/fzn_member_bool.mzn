% Kept as it is: docs/BUILTINS.md of fzcheck says what it means.
predicate fzn_member_bool(array [int] of var bool: x, var bool: y);
