---- MODULE M ----
EXTENDS A
THEOREM a \in a OBVIOUS
====
