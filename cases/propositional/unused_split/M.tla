---- MODULE M ----
CONSTANTS A, B, C
THEOREM A \/ B => (C <=> C) OBVIOUS
====