---- MODULE M ----
EXTENDS A
THEOREM U == a => c OBVIOUS
====
