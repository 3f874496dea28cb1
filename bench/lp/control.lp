% Company control: shares that may be bought give control with more than half, alone or by what is controlled already.
company(X) :- owns(X,_,_). company(X) :- owns(_,X,_).
{ buy(C) : offer(C,_,_) }.
control(Y) :- company(Y), #sum { S,Z : owns(Z,Y,S), control(Z) ; S,own : buy(Y), offer(Y,S,_) } > 50.
:- wanted(Y), not control(Y).
:- barred(Y), control(Y).
#minimize { P,C : buy(C), offer(C,_,P) }.
#show buy/1.
