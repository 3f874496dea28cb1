% Colours with costs: edge(X,Y), cost(X,C,V) are given.
{ col(X,C) : cost(X,C,_) } = 1 :- cost(X,_,_).
:- edge(X,Y), col(X,C), col(Y,C).
#minimize { V,X,C : col(X,C), cost(X,C,V) }.
#show col/2.
