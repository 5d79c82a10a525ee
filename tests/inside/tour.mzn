% Minimization, with a circuit and elements of a table.
include "circuit.mzn";
int: n = 4;
array [1..n, 1..n] of int: far = [|0, 4, 2, 7|4, 0, 5, 1|2, 5, 0, 3|7, 1, 3, 0|];
array [1..n] of var 1..n: next;
constraint circuit(next);
solve minimize sum (i in 1..n) (far[i, next[i]]);
output ["\(i) to \(next[i])\n" | i in 1..n];
