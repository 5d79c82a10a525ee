% A job shop: three jobs on three machines, and workers.
include "disjunctive.mzn";
include "cumulative.mzn";
enum Job = {Axle, Gear, Frame};
enum Machine = {Saw, Mill, Paint};
array [Job, Machine] of int: time = [| 3, 2, 2 | 2, 4, 1 | 4, 1, 3 |];
array [Job, Machine] of var 0..30: start;
var 0..30: end;

constraint :: "in order" forall(j in Job, m in Machine where m < max(Machine))(
  start[j, m] + time[j, m] <= start[j, enum_next(Machine, m)]);
constraint :: "one job at a time" forall(m in Machine)(
  disjunctive([start[j, m] | j in Job], [time[j, m] | j in Job]));
constraint :: "two workers" cumulative(array1d(start), array1d(time), [1 | i in 1..9], 2);
constraint :: "end" forall(j in Job)(start[j, Paint] + time[j, Paint] <= end);
solve minimize end;
