---- MODULE M ----
CONSTANTS A, B
THEOREM T == A => (B => A)
<1>1. ASSUME A PROVE B => A
  <2> HAVE B
  <2> QED OBVIOUS
<1>2. A => (B => A)
  <2> QED BY <1>1
<1> QED BY <1>2
====
