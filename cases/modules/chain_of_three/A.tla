---- MODULE A ----
EXTENDS B
CONSTANTS a, b
THEOREM a => a \/ c OBVIOUS
====
