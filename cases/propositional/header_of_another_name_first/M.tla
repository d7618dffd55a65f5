text ---- MODULE N ----
CONSTANT A, A
