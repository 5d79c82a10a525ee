% Boxes in a crate.
include "diffn.mzn";
enum Box;
array [Box] of int: width;
array [Box] of int: height;
array [Box] of var 0..6: x;
array [Box] of var 0..6: y;
constraint :: "apart" diffn(x, y, width, height);
solve satisfy;
