---- MODULE A ----
EXTENDS B
THEOREM T == b BY AB
====
