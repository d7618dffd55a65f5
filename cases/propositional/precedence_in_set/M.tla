---- MODULE M ----
CONSTANTS a, b, c, P
THEOREM {x \in a = b = c : P} OBVIOUS
====
