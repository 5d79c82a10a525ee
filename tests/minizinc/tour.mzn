% keeps: fzcheck_circuit inverse_offsets fzn_cumulative fzn_table_int fzcheck_bin_packing_load
% keeps: fzn_all_different_int
% Arrays whose indices begin with 0 and with 5, so that places and indices differ.
include "globals.mzn";

array [0..3] of var 0..3: next;
array [5..8] of var 0..3: back;
array [0..3] of var 0..9: start;
array [0..3] of int: length = array1d(0..3, [2,3,1,2]);
array [1..3] of var 0..1: word;
array [0..1] of var 0..9: load;
array [1..3] of var 0..1: bin;

constraint circuit(next);
constraint inverse(array1d(0..3, [back[i] | i in 5..8]), next);
constraint cumulative(start, length, array1d(0..3, [1,1,1,1]), 2);
constraint table(word, [| 0,1,0 | 1,0,1 |]);
constraint bin_packing_load(load, bin, [2,3,4]);
constraint all_different(start);

solve satisfy;
