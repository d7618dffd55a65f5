---- MODULE A ----
EXTENDS Sequences, Absent
====
