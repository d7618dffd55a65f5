---- MODULE M ----
CONSTANT A;
====
