% Plans of robots on a grid without meeting: place/1, near/2, start/2, goal/2 are given; n steps, fewest moves.
at(R,P,0) :- start(R,P).
robot(R) :- start(R,_).
{ at(R,Q,T) : near(P,Q) ; at(R,P,T) } = 1 :- at(R,P,T-1), T = 1..n.
:- at(R,P,T), at(S,P,T), R < S.
:- at(R,P,T-1), at(R,Q,T), at(S,Q,T-1), at(S,P,T), R < S, P != Q.
:- goal(R,P), not at(R,P,n).
moved(R,T) :- at(R,P,T), at(R,Q,T-1), P != Q.
#minimize { 1,R,T : moved(R,T) }.
#show at/3.
