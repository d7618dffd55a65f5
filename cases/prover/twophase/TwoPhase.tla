---- MODULE TwoPhase ----
(* Two-phase commit: resource managers prepare or abort by themselves; the coordinator commits once all are prepared. No manager
   commits while another aborts. *)
CONSTANT RM
VARIABLES state, decision

vars == <<state, decision>>

States == {"working", "prepared", "committed", "aborted"}

TypeOK == state \in [RM -> States] /\ decision \in {"open", "commit", "abort"}

Init == state = [r \in RM |-> "working"] /\ decision = "open"

Prepare(r) == /\ state[r] = "working"
              /\ state' = [state EXCEPT ![r] = "prepared"]
              /\ decision' = decision

GiveUp(r) == /\ state[r] = "working"
             /\ state' = [state EXCEPT ![r] = "aborted"]
             /\ decision' = decision

DecideCommit == /\ decision = "open"
                /\ \A r \in RM : state[r] = "prepared"
                /\ decision' = "commit"
                /\ state' = state

DecideAbort == /\ decision = "open"
               /\ decision' = "abort"
               /\ state' = state

Commit(r) == /\ decision = "commit"
             /\ state' = [state EXCEPT ![r] = "committed"]
             /\ decision' = decision

Abort(r) == /\ decision = "abort"
            /\ state' = [state EXCEPT ![r] = "aborted"]
            /\ decision' = decision

Next == \/ DecideCommit
        \/ DecideAbort
        \/ \E r \in RM : Prepare(r) \/ GiveUp(r) \/ Commit(r) \/ Abort(r)

Agreed == \A r \in RM : decision = "commit" => state[r] = "prepared" \/ state[r] = "committed"
Ruled == \A r \in RM : state[r] = "committed" => decision = "commit"
Inv == TypeOK /\ Agreed /\ Ruled

Consistent == \A r, s \in RM : ~(state[r] = "committed" /\ state[s] = "aborted")

THEOREM InvConsistent == Inv => Consistent
  BY DEF Inv, Agreed, Ruled, Consistent

THEOREM Start == Init => Inv
  BY DEF Init, Inv, TypeOK, States, Agreed, Ruled

THEOREM Step == Inv /\ [Next]_vars => Inv'
<1> SUFFICES ASSUME Inv, [Next]_vars PROVE Inv'
  OBVIOUS
<1> USE DEF Inv, TypeOK, States, Agreed, Ruled
<1>1. CASE DecideCommit
  BY <1>1 DEF DecideCommit
<1>2. CASE DecideAbort
  BY <1>2 DEF DecideAbort
<1>3. ASSUME NEW r \in RM, Prepare(r) PROVE Inv'
  BY <1>3 DEF Prepare
<1>4. ASSUME NEW r \in RM, GiveUp(r) PROVE Inv'
  BY <1>4 DEF GiveUp
<1>5. ASSUME NEW r \in RM, Commit(r) PROVE Inv'
  BY <1>5 DEF Commit
<1>6. ASSUME NEW r \in RM, Abort(r) PROVE Inv'
  BY <1>6 DEF Abort
<1>7. CASE UNCHANGED vars
  BY <1>7 DEF vars
<1> QED
  BY <1>1, <1>2, <1>3, <1>4, <1>5, <1>6, <1>7 DEF Next
====
