% The cheapest cover: has(S,E) and price(S,C) are given.
{ take(S) : price(S,_) }.
covered(E) :- take(S), has(S,E).
:- has(_,E), not covered(E).
#minimize { C,S : take(S), price(S,C) }.
#show take/1.
