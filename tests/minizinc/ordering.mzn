% keeps: fzn_decreasing_bool fzn_decreasing_int fzn_increasing_bool fzn_increasing_int
% keeps: fzn_strictly_increasing_int fzn_lex_less_bool fzn_lex_less_int fzn_lex_lesseq_bool
% keeps: fzn_lex_lesseq_int fzn_sort fzn_member_bool fzn_member_int fzn_value_precede_int
% keeps: fzn_value_precede_chain_int fzn_seq_precede_chain_int
% keeps: gecode_minimum_arg_int_offset gecode_maximum_arg_int_offset
include "globals.mzn";

array [0..3] of var 0..9: x;
array [0..3] of var 0..9: sorted;
array [2..4] of var 0..5: falling;
array [2..4] of var 0..5: rising;
array [1..4] of var bool: b;
array [1..4] of var bool: c;
array [1..4] of var 1..3: chain;
var 0..3: least;
var 0..3: greatest;

constraint decreasing(c);
constraint decreasing(falling);
constraint increasing(b);
constraint increasing(rising);
constraint strictly_increasing([rising[2], rising[4], 7]);
constraint lex_less(b, [true, true, true, c[1]]);
constraint lex_less(x, [9, 9, 9, falling[2]]);
constraint lex_lesseq(b, c);
constraint lex_lesseq(rising, falling);
constraint sort(x, sorted);
constraint member(c, true);
constraint member(x, 3);
constraint value_precede(1, 2, chain);
constraint value_precede_chain([1, 2, 3], chain);
constraint seq_precede_chain(chain);
constraint least = arg_min(x);
constraint greatest = arg_max(x);
constraint x[0] > x[1];

solve satisfy;
