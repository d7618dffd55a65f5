---- MODULE M ----
EXTENDS A
THEOREM T == a /\ b => c OBVIOUS
CONSTANT d
THEOREM U == a \/ d OBVIOUS
====
