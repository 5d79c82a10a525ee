% A job shop: each job goes over the machines in its own order, one job at a time on a machine.
include "disjunctive.mzn";
int: horizon = 30;
set of int: JOB = 1..3;
set of int: MACHINE = 1..3;
array [JOB, MACHINE] of int: duration = [|3, 2, 2 |2, 1, 4 |4, 3, 1|];
array [JOB, 1..3] of int: order = [|1, 2, 3 |1, 3, 2 |2, 3, 1|];
array [JOB, MACHINE] of var 0..horizon: start;
var 0..horizon: makespan;
constraint forall (j in JOB, k in 1..2)
  (start[j, order[j, k]] + duration[j, order[j, k]] <= start[j, order[j, k + 1]])
  :: "the steps of a job are in order";
constraint forall (m in MACHINE)
  (disjunctive([start[j, m] | j in JOB], [duration[j, m] | j in JOB])
   :: "one job at a time on machine \(m)");
constraint forall (j in JOB)
  (start[j, order[j, 3]] + duration[j, order[j, 3]] <= makespan)
  :: "all is done by the makespan";
solve minimize makespan;
