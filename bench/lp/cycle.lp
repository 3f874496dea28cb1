% Hamiltonian cycles of a directed graph: edge/2 is given.
node(X) :- edge(X,_).
{ in(X,Y) : edge(X,Y) } = 1 :- node(X).
{ in(X,Y) : edge(X,Y) } = 1 :- node(Y).
reach(1).
reach(Y) :- reach(X), in(X,Y).
:- node(X), not reach(X).
#show in/2.
