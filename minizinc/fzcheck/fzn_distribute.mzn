% Kept as it is: docs/BUILTINS.md of fzcheck says what it means.
predicate fzn_distribute(array [int] of var int: card, array [int] of var int: value, array [int] of var int: base);
