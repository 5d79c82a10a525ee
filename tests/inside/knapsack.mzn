% Maximization, with data and an output item.
array [int] of int: value = [15, 10, 9, 5, 3];
array [int] of int: weight = [4, 3, 2, 2, 1];
array [index_set(value)] of var 0..2: taken;
var int: worth = sum (i in index_set(value)) (value[i] * taken[i]);
constraint sum (i in index_set(value)) (weight[i] * taken[i]) <= 8;
solve maximize worth;
output ["taken \(taken), worth \(worth)\n"];
