% A bicycle that is put together from parts that fit.
include "table.mzn";
enum Frame = {Small, Medium, Large};
enum Colour = {Black, White, Green};
var Frame: frame;
var 24..29: wheel;
var Colour: colour;
var set of Colour: stickers;
var 300..900: cost;
array [1..4, 1..3] of int: fitting = [| 1, 24, 300 | 1, 26, 350 | 2, 26, 400 | 3, 29, 500 |];

constraint :: "they fit" table([frame, wheel, cost - 50 * card(stickers)], fitting);
constraint :: "stickers" colour in stickers -> frame = Small;
constraint :: "no white wheels" wheel > 26 -> colour != White;
constraint :: "at most two" card(stickers) <= 2;
solve satisfy;
