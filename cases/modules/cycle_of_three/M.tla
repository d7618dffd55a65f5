---- MODULE M ----
EXTENDS A
====
