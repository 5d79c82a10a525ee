% Operations with a choice of rooms: where each is, and from when on.
enum Operation = {Hip, Heart, Knee, Eye};
enum Room = {RoomA, RoomB};
array [Operation] of int: long = [Hip: 4, Heart: 5, Knee: 3, Eye: 1];
array [Operation, Room] of var opt 0..9: at;
var 0..20: last;

constraint :: "once" forall(o in Operation)(sum(r in Room)(occurs(at[o, r])) = 1);
constraint :: "one at a time" forall(r in Room, o, p in Operation where o < p)(
  occurs(at[o, r]) /\ occurs(at[p, r]) ->
    deopt(at[o, r]) + long[o] <= deopt(at[p, r]) \/
    deopt(at[p, r]) + long[p] <= deopt(at[o, r]));
constraint :: "heart in B" absent(at[Heart, RoomA]);
constraint :: "last" forall(o in Operation, r in Room)(
  occurs(at[o, r]) -> deopt(at[o, r]) + long[o] <= last);
constraint :: "the day ends" last <= 10;
solve satisfy;
