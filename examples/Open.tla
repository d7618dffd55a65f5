---- MODULE Open ----
CONSTANTS A, B, C
THEOREM T == A /\ B => C OBVIOUS
====
