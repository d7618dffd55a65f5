---- MODULE B ----
CONSTANTS a, b, c
ASSUME a
ASSUME AB == a => b
ASSUME BC == b => c
====
