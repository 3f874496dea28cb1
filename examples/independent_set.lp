% A greatest independent set of a path of five nodes.
node(1..5).
edge(X,X+1) :- node(X), node(X+1).
{ in(X) } :- node(X).
:- edge(X,Y), in(X), in(Y).
#maximize { 1,X : in(X) }.
#show in/1.
