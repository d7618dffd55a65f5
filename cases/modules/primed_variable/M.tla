---- MODULE M ----
VARIABLE x
THEOREM x' => x OBVIOUS
====
