% Jobs on machines that take one at a time, with a crew.
include "disjunctive.mzn";
include "cumulative.mzn";
enum Job;
enum Machine = {Saw, Glue};
array [Job, Machine] of int: time;
array [Job] of int: crew;
array [Job, Machine] of var 0..20: start;
constraint :: "order" forall(j in Job)(start[j, Saw] + time[j, Saw] <= start[j, Glue]);
constraint :: "one at a time" forall(m in Machine)(
  disjunctive([start[j, m] | j in Job], [time[j, m] | j in Job]));
constraint :: "crew" cumulative(
  [start[j, Glue] | j in Job], [time[j, Glue] | j in Job], crew, 3);
solve satisfy;
