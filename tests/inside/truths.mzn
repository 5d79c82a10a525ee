% Satisfaction, with Booleans.
array [1..4] of var bool: true_one;
constraint true_one[1] <-> sum(true_one) = 2;
constraint true_one[2] <-> not true_one[3];
constraint true_one[3] -> true_one[1] \/ true_one[4];
constraint true_one[4] <-> true_one[1] /\ true_one[2];
solve satisfy;
