---- MODULE A ----
EXTENDS B
====
