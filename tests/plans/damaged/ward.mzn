% A roster: who works which shift, and how many nights each has.
enum Nurse = {Ada, Ben, Cleo, Dex};
enum Day = {Mon, Tue, Wed, Thu, Fri};
enum Shift = {Early, Late, Night, Off};
array [Shift] of int: need = [Early: 1, Late: 1, Night: 1, Off: 0];
array [Nurse, Day] of var Shift: roster;
array [Nurse] of var int: nights = [sum(d in Day)(roster[n, d] = Night) | n in Nurse];

constraint :: "cover" forall(d in Day, s in {Early, Late, Night})(
  sum(n in Nurse)(roster[n, d] = s) >= need[s]);
constraint :: "rest" forall(n in Nurse, d in Day where d < max(Day))(
  roster[n, d] = Night -> roster[n, enum_next(Day, d)] in {Night, Off});
constraint :: "a day off" forall(n in Nurse)(exists(d in Day)(roster[n, d] = Off));
constraint :: "Ada's week" roster[Ada, Fri] != Night;
solve satisfy;
