% Satisfaction, with an array and no output item.
include "alldifferent.mzn";
int: n = 6;
array [1..n] of var 1..n: queen;
constraint alldifferent(queen);
constraint alldifferent(i in 1..n)(queen[i] + i);
constraint alldifferent(i in 1..n)(queen[i] - i);
solve satisfy;
