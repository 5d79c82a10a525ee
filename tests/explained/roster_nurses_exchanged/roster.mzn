% A roster: who works when, with a rest behind each night.
include "count_eq.mzn";
include "count_geq.mzn";
int: off = 0; int: early = 1; int: night = 2;
set of int: NURSE = 1..4;
set of int: DAY = 1..4;
array [NURSE, DAY] of var off..night: shift;
constraint forall (d in DAY)
  (count_eq([shift[n, d] | n in NURSE], night, 1) :: "one nurse at night on day \(d)");
constraint forall (d in DAY)
  (count_eq([shift[n, d] | n in NURSE], early, 2) :: "two nurses early on day \(d)");
constraint forall (n in NURSE)
  (count_geq([shift[n, d] | d in DAY], night, 2) :: "at most two nights for nurse \(n)");
constraint forall (n in NURSE, d in DAY where d < max(DAY))
  (shift[n, d] = night -> shift[n, d + 1] != early)
  :: "no early shift behind a night";
solve satisfy;
