% Satisfaction, with sets.
array [1..3] of var set of 1..6: team;
constraint forall (i in 1..3) (card(team[i]) = 2);
constraint forall (i, j in 1..3 where i < j) (card(team[i] intersect team[j]) = 0);
constraint forall (i in 1..3) (not ({1, 2} subset team[i]));
solve satisfy;
