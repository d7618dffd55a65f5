---- MODULE Peterson ----
(* Peterson's algorithm for two processes: each raises its flag, gives the turn away, and waits until the other's flag is down or
   the turn is its own. *)
VARIABLES pc, turn

vars == <<pc, turn>>

Proc == {"left", "right"}
PC == {"idle", "asked", "waits", "critical"}
Other(p) == IF p = "left" THEN "right" ELSE "left"

TypeOK == pc \in [Proc -> PC] /\ turn \in Proc

Init == pc = [p \in Proc |-> "idle"] /\ turn = "left"

Ask(p) == /\ pc[p] = "idle"
          /\ pc' = [pc EXCEPT ![p] = "asked"]
          /\ turn' = turn

Yield(p) == /\ pc[p] = "asked"
            /\ pc' = [pc EXCEPT ![p] = "waits"]
            /\ turn' = Other(p)

Enter(p) == /\ pc[p] = "waits"
            /\ pc[Other(p)] = "idle" \/ turn = p
            /\ pc' = [pc EXCEPT ![p] = "critical"]
            /\ turn' = turn

Leave(p) == /\ pc[p] = "critical"
            /\ pc' = [pc EXCEPT ![p] = "idle"]
            /\ turn' = turn

Next == \E p \in Proc : Ask(p) \/ Yield(p) \/ Enter(p) \/ Leave(p)

Busy(p) == pc[p] = "waits" \/ pc[p] = "critical"
Inv == /\ TypeOK
       /\ \A p \in Proc : pc[p] = "critical" /\ Busy(Other(p)) => turn = p

Mutex == ~(pc["left"] = "critical" /\ pc["right"] = "critical")

THEOREM InvMutex == Inv => Mutex
  BY DEF Inv, Mutex, Busy, Other, Proc

THEOREM Start == Init => Inv
  BY DEF Init, Inv, TypeOK, Proc, PC, Busy, Other

THEOREM Step == Inv /\ [Next]_vars => Inv'
<1> SUFFICES ASSUME Inv, [Next]_vars PROVE Inv'
  OBVIOUS
<1> USE DEF Inv, TypeOK, Proc, PC, Busy, Other
<1>1. ASSUME NEW p \in Proc, Ask(p) PROVE Inv'
  BY <1>1 DEF Ask
<1>2. ASSUME NEW p \in Proc, Yield(p) PROVE Inv'
  BY <1>2 DEF Yield
<1>3. ASSUME NEW p \in Proc, Enter(p) PROVE Inv'
  BY <1>3 DEF Enter
<1>4. ASSUME NEW p \in Proc, Leave(p) PROVE Inv'
  BY <1>4 DEF Leave
<1>5. CASE UNCHANGED vars
  BY <1>5 DEF vars
<1> QED
  BY <1>1, <1>2, <1>3, <1>4, <1>5 DEF Next
====
