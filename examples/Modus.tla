---- MODULE Modus ----
CONSTANTS A, B, C
THEOREM T == A /\ B => A OBVIOUS
====
