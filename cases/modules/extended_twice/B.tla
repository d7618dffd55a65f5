---- MODULE B ----
CONSTANT c
====
