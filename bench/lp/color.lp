1 { col(X,C) : C = 1..k } 1 :- node(X).
:- edge(X,Y), col(X,C), col(Y,C).
node(1..n).
edge(X,Y) :- node(X), node(Y), X < Y, (X*X*7 + Y*Y*13 + X*Y) \ m == 0.
#show col/2.
