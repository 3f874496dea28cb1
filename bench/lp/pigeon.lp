1 { at(P,H) : H = 1..n-1 } 1 :- P = 1..n.
:- at(P,H), at(Q,H), P < Q.
