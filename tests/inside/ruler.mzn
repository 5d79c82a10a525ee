% Minimization, with many introduced variables.
include "alldifferent.mzn";
int: n = 5;
array [1..n] of var 0..n * n: mark;
constraint mark[1] = 0 /\ forall (i in 1..n - 1) (mark[i] < mark[i + 1]);
constraint alldifferent([mark[j] - mark[i] | i, j in 1..n where i < j]);
solve minimize mark[n];
