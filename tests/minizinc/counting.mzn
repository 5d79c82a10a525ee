% keeps: fzn_all_different_int fzn_all_equal_int fzn_alldifferent_except_0 fzn_among
% keeps: fzn_at_least_int fzn_at_most_int fzn_exactly_int fzn_count_eq fzn_count_geq fzn_count_gt
% keeps: fzn_count_leq fzn_count_lt fzn_count_neq fzn_nvalue fzn_distribute
% keeps: fzn_global_cardinality fzn_global_cardinality_closed fzn_global_cardinality_low_up
% keeps: fzn_global_cardinality_low_up_closed fzn_sliding_sum
include "globals.mzn";

array [1..4] of var 0..9: x;
array [1..4] of var 0..9: y;
array [0..3] of var 1..3: grade;
array [1..3] of var 0..4: how_many;
array [1..3] of var 0..4: how_often;
array [1..2] of var 0..4: twin;
var 0..9: a;
var 0..9: b;
var 0..9: c;
var 0..9: d;
var 0..9: e;

constraint all_different(x);
constraint all_equal(twin);
constraint alldifferent_except_0(y);
constraint among(a, x, {1, 2, 3});
constraint at_least(1, x, 3);
constraint at_most(2, y, 0);
constraint exactly(2, [grade[i] | i in 0..3], 2);
constraint count(y, b, c);
constraint count_geq(y, b, d);
constraint count_gt(y, b, e);
constraint count_leq(x, 5, 1);
constraint count_lt(x, 3, 0);
constraint count_neq(x, 5, 3);
constraint nvalue(d, x);
constraint distribute(how_many, [1, 2, 3], [grade[i] | i in 0..3]);
constraint global_cardinality(x, [3, 4], [1, a]);
constraint global_cardinality_closed(grade, [1, 2, 3], how_often);
constraint global_cardinality_low_up(x, [3, 4], [1, 0], [2, 2]);
constraint global_cardinality_low_up_closed(grade, [1, 2, 3], [0, 1, 0], [4, 4, 4]);
constraint sliding_sum(2, 30, 3, x);

solve satisfy;
