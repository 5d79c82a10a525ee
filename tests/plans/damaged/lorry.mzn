% Which van takes each parcel, and what each van carries.
enum Parcel = {Sofa, Desk, Lamp, Bed, Chair, Safe};
enum Van = {Red, Blue, Green};
array [Parcel] of int: weight = [30, 20, 5, 35, 10, 60];
array [Van] of int: limit = [Red: 60, Blue: 60, Green: 70];
array [Parcel] of var Van: van;
array [Van] of var 0..200: load;

constraint :: "loads" forall(v in Van)(
  load[v] = sum(p in Parcel)(weight[p] * bool2int(van[p] = v)));
constraint :: "limits" forall(v in Van)(load[v] <= limit[v]);
constraint :: "together" van[Desk] = van[Chair];
constraint :: "apart" van[Sofa] != van[Lamp];
constraint :: "safe in green" van[Safe] = Green;
solve satisfy;
