---- MODULE M ----
CONSTANT a
THEOREM T == a => a OBVIOUS
THEOREM U == a => a BY T
====
