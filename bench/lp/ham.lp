node(1..n).
edge(X,Y) :- node(X), node(Y), X != Y, X != Y.
{ in(X,Y) : edge(X,Y) } = 1 :- node(X).
{ in(X,Y) : edge(X,Y) } = 1 :- node(Y).
reach(1).
reach(Y) :- reach(X), in(X,Y).
:- node(X), not reach(X).
#show in/2.
