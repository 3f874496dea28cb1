% Latin squares of n with given/3 filled in.
{ put(X,Y,V) : V = 1..n } = 1 :- X = 1..n, Y = 1..n.
{ put(X,Y,V) : Y = 1..n } = 1 :- X = 1..n, V = 1..n.
{ put(X,Y,V) : X = 1..n } = 1 :- Y = 1..n, V = 1..n.
:- given(X,Y,V), not put(X,Y,V).
#show put/3.
