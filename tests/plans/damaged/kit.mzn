% How many parts of each kind go into a kit.
enum Part = {Bolt, Nut, Rod, Plate};
int: budget = 60;
array [Part] of int: unit = [Bolt: 1, Nut: 2, Rod: 7, Plate: 12];
array [Part] of var 0..9: count;
array [Part] of var int: price = [unit[p] * count[p] | p in Part];
var 0..1000: total = sum(price);
var float: weight = 0.25 * sum(count);
array [Part] of var bool: some = [count[p] > 0 | p in Part];

constraint :: "budget" sum(price) <= budget;
constraint :: "enough nuts" count[Nut] >= count[Bolt];
constraint :: "plates" count[Plate] in {2, 3};
constraint :: "a rod for each plate" count[Rod] >= count[Plate];
solve satisfy;
output ["count = \(count);\nprice = \(price);\ntotal = \(total);\nweight = \(weight);\n",
        "some = \(some);\n"];
