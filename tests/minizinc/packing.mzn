% keeps: fzn_bin_packing fzcheck_bin_packing_load fzn_cumulative fzn_diffn fzn_diffn_nonstrict
% keeps: fzn_disjunctive fzn_disjunctive_strict fzn_knapsack
include "globals.mzn";

array [1..4] of var 1..3: bin;
array [0..2] of var 0..20: load;
array [1..4] of var 0..2: crate;
array [0..3] of var 0..12: start;
array [1..2] of var 0..5: left;
array [1..2] of var 0..5: low;
array [1..3] of var 0..4: taken;
array [1..3] of var 0..3: lasts;
var 0..30: weight;
var 0..30: profit;

constraint bin_packing(9, bin, [3, 4, 5, 2]);
constraint bin_packing_load(load, crate, [3, 4, 5, 2]);
constraint cumulative([start[i] | i in 0..3], [3, 2, 4, 1], [1, 2, 1, 1], 3);
constraint diffn(left, low, [1, 2], [2, 1]);
constraint diffn_nonstrict(left, low, [1, 0], [2, 0]);
constraint disjunctive([start[i] | i in 0..2], lasts);
constraint disjunctive_strict([start[i] | i in 0..3], [3, 2, 4, 0]);
constraint knapsack([2, 3, 4], [3, 4, 6], taken, weight, profit);
constraint weight <= 9 /\ profit >= 11;

solve satisfy;
