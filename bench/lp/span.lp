node(1..n).
edge(X,Y,1+(X*7+Y*11)\ 9) :- node(X), node(Y), X != Y, (X*3 + Y*5 + X*Y) \ 5 < 2.
{ in(X,Y) : edge(X,Y,_) } = 1 :- node(Y), Y > 1.
reach(1).
reach(Y) :- reach(X), in(X,Y).
:- node(X), not reach(X).
#minimize { C,X,Y : in(X,Y), edge(X,Y,C) }.
#show in/2.
