---- MODULE M ----
CONSTANT A
  (* (* never closed *)
====
