---- MODULE M ----
VARIABLE x
D == []x
E == D \/ x
THEOREM x => x OBVIOUS
THEOREM E => E OBVIOUS
====
