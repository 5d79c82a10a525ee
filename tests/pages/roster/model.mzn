% Who works which shift.
enum Nurse;
enum Day = {Mon, Tue, Wed};
enum Shift = {Early, Late, Night, Off};
array [Nurse, Day] of var Shift: roster;
constraint :: "cover" forall(d in Day, s in {Early, Night})(
  sum(n in Nurse)(roster[n, d] = s) >= 1);
constraint :: "rest" forall(n in Nurse, d in {Mon, Tue})(
  roster[n, d] = Night -> roster[n, enum_next(Day, d)] in {Night, Off});
solve satisfy;
