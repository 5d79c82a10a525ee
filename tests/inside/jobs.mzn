% Minimization, with a global constraint and reified ones.
include "cumulative.mzn";
array [1..4] of int: length = [3, 2, 4, 2];
array [1..4] of var 0..12: start;
var 0..20: end = max (i in 1..4) (start[i] + length[i]);
constraint cumulative(start, length, [1, 1, 2, 1], 2);
constraint start[1] + length[1] <= start[4] \/ start[4] + length[4] <= start[1];
solve minimize end;
