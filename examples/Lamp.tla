---- MODULE Lamp ----
EXTENDS Switch
VARIABLE bright
Next == Flips \/ (Stays /\ bright)
THEOREM Stays /\ bright => Flips \/ (Stays /\ bright) OBVIOUS
THEOREM LET Lit == on /\ bright IN Lit /\ Next => on /\ (Next \/ Stays) OBVIOUS
====
