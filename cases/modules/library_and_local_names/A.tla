---- MODULE A ----
EXTENDS Integers
VARIABLE n
====
