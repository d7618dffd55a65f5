---- MODULE M ----
EXTENDS Naturals, A
THEOREM T == Nat /\ (LET L == n IN L' /\ ~L) => n OBVIOUS
====
