% A route: a van sets out from stop 1, visits each stop once within its hours, and ends at stop 6.
include "circuit.mzn";
set of int: STOP = 1..6;
int: home = 6;
array [STOP, STOP] of int: minutes =
  [|0, 7, 9, 5, 8, 0 |7, 0, 4, 6, 9, 7 |9, 4, 0, 8, 3, 9 |5, 6, 8, 0, 7, 5 |8, 9, 3, 7, 0, 8
   |0, 0, 0, 0, 0, 0|];
array [STOP] of int: opens = [0, 10, 0, 20, 5, 0];
array [STOP] of int: closes = [60, 40, 30, 60, 45, 60];
array [STOP] of var STOP: next;
array [STOP] of var 0..100: arrival;
constraint circuit(next) :: "one round over all stops";
constraint next[home] = 1;
constraint forall (i in STOP where i != home)
  (arrival[next[i]] >= arrival[i] + minutes[i, next[i]])
  :: "the van takes its time";
constraint forall (i in STOP) (arrival[i] >= opens[i]) :: "not before the stop opens";
constraint forall (i in STOP) (arrival[i] <= closes[i]) :: "not after the stop closes";
solve minimize arrival[home];
