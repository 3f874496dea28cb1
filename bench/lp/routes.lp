% All plans of n steps: a walker on a graph, picking up each key/2 before the goal, no place twice but by waiting.
at(P,0) :- start(P).
{ at(Q,T) : near(P,Q) } = 1 :- at(P,T-1), T = 1..n.
seen(P) :- at(P,_).
:- key(P), not seen(P).
:- at(P,S), at(P,T), S < T.
:- goal(P), not at(P,n).
#show at/2.
