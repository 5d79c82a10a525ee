% A tour: the stop after each, and when each is reached.
include "circuit.mzn";
enum Stop = {Depot, North, West, South, East};
array [Stop, Stop] of int: way = [|
  0, 4, 6, 5, 3 | 4, 0, 3, 8, 6 | 6, 3, 0, 4, 7 | 5, 8, 4, 0, 5 | 3, 6, 7, 5, 0 |];
array [Stop] of var Stop: next;
array [Stop] of var 0..500: arrive;
var 0..500: length = sum(s in Stop)(way[s, next[s]]);

constraint :: "one tour" circuit(next);
constraint :: "in time" forall(s in Stop where next[s] != Depot)(
  arrive[next[s]] >= arrive[s] + way[s, next[s]]);
constraint :: "open" forall(s in Stop where s != Depot)(arrive[s] >= 2 /\ arrive[s] <= 40);
constraint :: "start" arrive[Depot] = 0;
constraint :: "short" length <= 22;
solve satisfy;
