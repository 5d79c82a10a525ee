% What goes into a kit. Handles are as many as axes.
enum Part;
array [Part] of int: weight;
array [Part] of var 0..9: count;
var 0..99: total;
constraint :: "total" total = sum(count);
constraint :: "load" sum(p in Part)(weight[p] * count[p]) <= 20;
constraint :: "handles" count[Axe] = count[Handle];
solve maximize total;
