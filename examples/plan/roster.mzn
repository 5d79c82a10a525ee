% Who works which shift on a ward, for a week.
enum Nurse;
enum Day = {Mon, Tue, Wed, Thu, Fri, Sat, Sun};
enum Shift = {Early, Late, Night, Off};

array [Shift] of int: needed;  % how many nurses, each day
set of Shift: work = {Early, Late, Night};

array [Nurse, Day] of var Shift: roster;

constraint :: "cover"
  forall(day in Day, shift in work)(
    sum(nurse in Nurse)(roster[nurse, day] = shift) >= needed[shift]
  );

constraint :: "rest after a night"
  forall(nurse in Nurse, day in Day where day != max(Day))(
    roster[nurse, day] = Night -> roster[nurse, enum_next(Day, day)] in {Night, Off}
  );

constraint :: "five shifts a week"
  forall(nurse in Nurse)(
    sum(day in Day)(roster[nurse, day] != Off) <= 5
  );

solve satisfy;
