% keeps: fzn_disjoint fzn_partition_set gecode_int_set_channel gecode_inverse_set
% keeps: gecode_link_set_to_booleans gecode_precede_set gecode_range
include "globals.mzn";

var set of 1..4: s;
var set of 1..4: t;
array [1..3] of var set of 1..4: parts;
array [1..4] of var 1..3: group;
array [1..3] of var set of 1..4: members;
array [1..4] of var bool: chosen;
array [0..2] of var set of 1..4: likes;
array [1..4] of var set of 0..2: liked;

constraint disjoint(s, t);
constraint card(s) = 2 /\ card(t) = 1;
constraint partition_set(parts, 1..4);
constraint int_set_channel(group, members);
constraint link_set_to_booleans(s, chosen);
constraint range(group, s, t);
constraint inverse_set(likes, liked);
constraint value_precede(1, 2, likes);

solve satisfy;
