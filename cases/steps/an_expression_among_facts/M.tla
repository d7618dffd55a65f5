---- MODULE M ----
CONSTANTS A, B
ASSUME A
THEOREM T == A \/ B
  BY A \/ B, A /\ B
====
