% Which nodes a chosen set of edges reaches from node 1, through a loop of nodes 2 and 3.
edge(1,2). edge(2,3). edge(3,2). edge(3,4).
{ use(X,Y) } :- edge(X,Y).
reached(1).
reached(Y) :- reached(X), use(X,Y).
:- not reached(4).
#show use/2.
