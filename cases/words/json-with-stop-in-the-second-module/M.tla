---- MODULE M ----
CONSTANTS A, B
THEOREM T == (A => B) /\ A => B OBVIOUS
====
