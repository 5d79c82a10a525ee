% keeps: fzcheck_circuit fzcheck_subcircuit inverse_offsets fzn_regular fzn_table_int fzn_table_bool
include "globals.mzn";

array [0..3] of var 0..3: next;
array [2..5] of var 2..5: part;
array [0..3] of var 1..4: to;
array [1..4] of var 0..3: from;
array [0..4] of var 1..3: word;
array [1..2] of var 0..9: pair;
array [1..2] of var bool: truths;

constraint circuit(next);
constraint subcircuit(part);
constraint part[2] != 2;
constraint inverse(to, from);
constraint regular(word, 3, 3, [| 1, 2, 3 | 1, 3, 0 | 2, 1, 1 |], 1, {1, 2});
constraint table(pair, [| 3, 5 | 4, 6 | 7, 3 |]);
constraint table(truths, [| true, false | true, true |]);

solve satisfy;
