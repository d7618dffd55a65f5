---- MODULE M ----
CONSTANTS A, B, A
====
