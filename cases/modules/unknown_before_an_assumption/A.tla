---- MODULE A ----
CONSTANT a
ASSUME a
====
