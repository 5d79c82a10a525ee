% Satisfaction, with an enumerated type.
enum Colour = {red, green, blue};
enum Land = {wa, nt, sa, q, nsw, v};
array [int, 1..2] of Land: border =
  [|wa, nt|wa, sa|nt, sa|nt, q|sa, q|sa, nsw|sa, v|q, nsw|nsw, v|];
array [Land] of var Colour: colour;
constraint forall (i in index_set_1of2(border)) (colour[border[i, 1]] != colour[border[i, 2]]);
solve satisfy;
