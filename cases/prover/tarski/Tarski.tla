---- MODULE Tarski ----
(* A monotone operator on the subsets of a set has a least fixed point: the elements of all sets that it maps into themselves. *)
CONSTANTS S, F(_)

ASSUME Into == \A A \in SUBSET S : F(A) \in SUBSET S
ASSUME Monotone == \A A, B \in SUBSET S : A \subseteq B => F(A) \subseteq F(B)

Closed(A) == A \in SUBSET S /\ F(A) \subseteq A
Least == {x \in S : \A A : Closed(A) => x \in A}

THEOREM LeastIn == Least \in SUBSET S
  BY DEF Least

THEOREM Below == ASSUME NEW A, Closed(A) PROVE Least \subseteq A
  BY DEF Least

THEOREM Pre == F(Least) \subseteq Least
<1> SUFFICES ASSUME NEW x \in F(Least), NEW A, Closed(A) PROVE x \in A
  <2>1. F(Least) \subseteq S
    BY Into, LeastIn
  <2> QED
    BY <2>1 DEF Least
<1>1. Least \subseteq A
  BY Below
<1>2. F(Least) \subseteq F(A)
  BY <1>1, LeastIn, Monotone DEF Closed
<1> QED
  BY <1>2 DEF Closed

THEOREM Post == Least \subseteq F(Least)
<1>1. F(Least) \in SUBSET S
  BY Into, LeastIn
<1>2. F(F(Least)) \subseteq F(Least)
  BY <1>1, LeastIn, Pre, Monotone
<1>3. Closed(F(Least))
  BY <1>1, <1>2 DEF Closed
<1> QED
  BY <1>3, Below

THEOREM Fixed == F(Least) = Least
  BY Pre, Post DEF Least

THEOREM LeastOfAll == ASSUME NEW B \in SUBSET S, F(B) = B PROVE Least \subseteq B
<1>1. Closed(B)
  BY DEF Closed
<1> QED
  BY <1>1, Below
====
