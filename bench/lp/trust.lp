% Trust: who is asked is trusted, and who is vouched for by k that are trusted. The fewest asked so that all wanted are.
{ asked(X) : person(X) }.
trusted(X) :- asked(X).
trusted(X) :- person(X), k { trusted(Y) : vouches(Y,X) }.
:- wanted(X), not trusted(X).
#minimize { 1,X : asked(X) }.
#show asked/1.
