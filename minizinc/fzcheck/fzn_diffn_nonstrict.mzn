% Kept as it is: docs/BUILTINS.md of fzcheck says what it means.
predicate fzn_diffn_nonstrict(array [int] of var int: x, array [int] of var int: y, array [int] of var int: dx, array [int] of var int: dy);
