---- MODULE M ----
VARIABLES x, y
D == x = y
E == 1 = 1
THEOREM D /\ E => D' /\ E' OBVIOUS
====
