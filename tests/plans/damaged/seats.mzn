% Who sits where at a long table.
include "alldifferent.mzn";
enum Guest = {Kim, Lou, Max, Nia, Oto};
array [Guest] of var 1..5: seat;
array [1..5] of var Guest: guest;
var bool: ends = seat[Kim] in {1, 5};

constraint :: "a seat each" alldifferent(seat);
constraint :: "both lists" forall(g in Guest)(guest[seat[g]] = g);
constraint :: "Kim by Lou" abs(seat[Kim] - seat[Lou]) = 1;
constraint :: "Max not by Nia" abs(seat[Max] - seat[Nia]) > 1;
constraint :: "Oto before Max" seat[Oto] < seat[Max];
solve satisfy;
