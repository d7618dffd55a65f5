---- MODULE A ----
CONSTANT a
THEOREM T == a => b OBVIOUS
====
