---- MODULE M ----
CONSTANT a
THEOREM (a %% a) OBVIOUS
====
