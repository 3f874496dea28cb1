% The two-colourings of a square.
node(1..4).
edge(1,2). edge(2,3). edge(3,4). edge(4,1).
{ red(X) } :- node(X).
:- edge(X,Y), red(X), red(Y).
:- edge(X,Y), not red(X), not red(Y).
#show red/1.
