% Satisfaction, with an array of two dimensions.
include "alldifferent.mzn";
array [1..3, 1..3] of var 1..9: square;
constraint alldifferent(array1d(square));
constraint forall (i in 1..3) (sum(square[i, ..]) = 15 /\ sum(square[.., i]) = 15);
constraint sum (i in 1..3) (square[i, i]) = 15 /\ sum (i in 1..3) (square[i, 4 - i]) = 15;
solve satisfy;
output [show2d(square)];
