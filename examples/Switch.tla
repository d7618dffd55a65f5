---- MODULE Switch ----
VARIABLE on
Flips == on' <=> ~on
Stays == on' <=> on
THEOREM OneOfTwo == (on' <=> ~on) \/ (on' <=> on) OBVIOUS
====
