% The cheapest round trip: cost/3 is given.
node(X) :- cost(X,_,_).
{ in(X,Y) : cost(X,Y,_) } = 1 :- node(X).
{ in(X,Y) : cost(X,Y,_) } = 1 :- node(Y).
reach(1).
reach(Y) :- reach(X), in(X,Y).
:- node(X), not reach(X).
#minimize { C,X,Y : in(X,Y), cost(X,Y,C) }.
#show in/2.
