% Boxes on a pallet, none on another; the first two have one edge in common.
include "diffn.mzn";
enum Box = {Crate, Drum, Case, Sack};
array [Box] of int: wide = [3, 2, 2, 1];
array [Box] of int: high = [2, 2, 3, 1];
array [Box] of var 0..5: x;
array [Box] of var 0..5: y;
var 0..5: edge;

constraint :: "not one on another" diffn(x, y, wide, high);
constraint :: "inside" forall(b in Box)(x[b] + wide[b] <= 5 /\ y[b] + high[b] <= 5);
constraint :: "in line" x[Crate] = x[Drum];
constraint :: "edge" edge = y[Crate];
constraint :: "drum above" y[Drum] >= y[Crate] + high[Crate];
solve satisfy;
