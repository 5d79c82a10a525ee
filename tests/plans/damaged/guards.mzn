% Guards in a pattern: never two nights, and a rest behind each night.
include "regular.mzn";
include "global_cardinality_low_up.mzn";
enum Guard = {Uma, Vic, Wes};
enum Duty = {Day, Night, Rest};
int: weeks = 6;
array [Guard, 1..weeks] of var Duty: duty;

constraint :: "pattern" forall(g in Guard)(
  regular([duty[g, w] | w in 1..weeks], 3, Duty,
    [| 1, 2, 3 | 0, 0, 3 | 1, 2, 0 |], 1, 1..3));
constraint :: "someone at night" forall(w in 1..weeks)(exists(g in Guard)(duty[g, w] = Night));
constraint :: "fair" forall(g in Guard)(
  global_cardinality_low_up([duty[g, w] | w in 1..weeks], [Day, Night, Rest], [1, 1, 1], [4, 3, 2]));
solve satisfy;
