var 0..9: a;
var 0..9: b;
constraint forall (i in 1..2) (
  a + i <= b
);
solve satisfy;
