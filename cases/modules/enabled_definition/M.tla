---- MODULE M ----
VARIABLE x
D == ENABLED (x' = x)
E == D
THEOREM E => E OBVIOUS
====
