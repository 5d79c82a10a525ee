% What goes along: a sack of limited weight and volume.
enum Thing = {Tent, Stove, Rope, Map, Water, Book};
array [Thing] of int: weight = [9, 4, 3, 1, 6, 2];
array [Thing] of int: volume = [8, 3, 4, 1, 5, 2];
array [Thing] of int: use = [10, 6, 4, 3, 9, 1];
array [Thing] of var bool: takes;
var int: value = sum(t in Thing)(use[t] * takes[t]);
var 0..100: kilos = sum(t in Thing)(weight[t] * takes[t]);
var opt Thing: spare;

constraint :: "weight" kilos <= 16;
constraint :: "volume" sum(t in Thing)(volume[t] * takes[t]) <= 15;
constraint :: "a stove needs water" takes[Stove] -> takes[Water];
constraint :: "spare" forall(t in Thing)(spare = t -> not takes[t]);
solve maximize value;
output ["takes = \(takes);\nvalue = \(value);\nkilos = \(kilos);\nspare = \(spare);\n"];
