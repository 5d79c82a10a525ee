% A timetable: which courses are held in each slot.
enum Course = {Algebra, Biology, Chemistry, Drama, English};
enum Slot = {Mon1, Mon2, Tue1};
set of Course: loud = {Chemistry, Drama};
array [Slot] of var set of Course: held;
array [Course] of var 0..3: hours = [sum(s in Slot)(c in held[s]) | c in Course];

constraint :: "rooms" forall(s in Slot)(card(held[s]) <= 3);
constraint :: "each twice but Drama" forall(c in Course where c != Drama)(
  sum(s in Slot)(bool2int(c in held[s])) = 2);
constraint :: "one loud course" forall(s in Slot)(card(held[s] intersect loud) <= 1);
constraint :: "Drama on Tuesday" Drama in held[Tue1] /\ not (Drama in held[Mon1]);
constraint :: "no lessons twice" held[Mon1] != held[Mon2];
solve satisfy;
