---- MODULE B ----
EXTENDS Naturals, A
====
