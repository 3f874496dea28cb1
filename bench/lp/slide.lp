% Plans of n moves exactly of the sliding puzzle on a grid of w by h: at(tile,cell) is given by start/2 and goal/2, tile 0 the hole.
cell(0..w*h-1). tile(0..w*h-1).
near(C,C+1) :- cell(C), (C+1) \ w != 0, cell(C+1).
near(C,C+w) :- cell(C), cell(C+w).
near(C,D) :- near(D,C).
at(X,C,0) :- start(X,C).
{ to(D,T) : cell(D) } = 1 :- T = 1..n.
:- to(D,T), at(0,C,T-1), not near(C,D).
at(0,D,T) :- to(D,T).
at(X,C,T) :- to(D,T), at(X,D,T-1), at(0,C,T-1), X > 0.
at(X,C,T) :- at(X,C,T-1), X > 0, not to(C,T), T = 1..n.
:- to(C,T), T > 1, at(0,C,T-2).
:- goal(X,C), not at(X,C,n).
#show to/2.
