---- MODULE M ----
(* A courier has a parcel or waits for one, never both. Handing over and taking are the only actions. *)
VARIABLES waits, holds

Init == waits /\ ~holds
Take == waits /\ ~waits' /\ holds'
Hand == holds /\ ~holds' /\ waits'
Next == Take \/ Hand
Inv == ~(waits /\ holds)

THEOREM Start == Init => Inv
  BY DEF Init, Inv

THEOREM Step == Inv /\ Next => Inv'
<1> SUFFICES ASSUME Inv, Next PROVE Inv'
  OBVIOUS
<1>1. CASE Take
  BY <1>1 DEF Take, Inv
<1>2. CASE Hand
  BY <1>2 DEF Hand, Inv
<1> QED
  BY <1>1, <1>2 DEF Next

THEOREM Safe == Init \/ (Inv /\ Next) => Inv \/ Inv'
<1> HAVE Init \/ (Inv /\ Next)
<1>1. CASE Init
  BY <1>1, Start
<1>2. CASE Inv /\ Next
  <2>1. Inv'
    BY <1>2, Step
  <2> QED
    BY <2>1
<1> QED
  BY <1>1, <1>2
====
