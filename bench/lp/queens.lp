1 { q(X,Y) : Y = 1..n } 1 :- X = 1..n.
1 { q(X,Y) : X = 1..n } 1 :- Y = 1..n.
:- q(X,Y), q(X+D,Y+D), D = 1..n.
:- q(X,Y), q(X+D,Y-D), D = 1..n.
#show q/2.
