---- MODULE M ----
EXTENDS A, B
THEOREM c <=> c OBVIOUS
====
