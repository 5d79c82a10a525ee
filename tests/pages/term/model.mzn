% Courses by slots, and which are held in each.
enum Course;
enum Slot = {Mon, Tue};
array [Course] of var Slot: slot;
array [Slot] of var set of Course: held;
array [Course, Slot, 1..2] of var bool: booked;
constraint :: "held" forall(c in Course, s in Slot)(c in held[s] <-> slot[c] = s);
constraint :: "booked" forall(c in Course, s in Slot, h in 1..2)(booked[c, s, h] -> slot[c] = s);
constraint :: "students" slot[Algebra] != slot[Botany];
solve satisfy;
