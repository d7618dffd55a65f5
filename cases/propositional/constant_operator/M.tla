---- MODULE M ----
CONSTANT f(_)
====