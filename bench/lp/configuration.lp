% Parts of a machine by weights: part(slot,part), gives/3, needs/2, limit/2, conflict/2, price/2 are given.
{ use(P) : part(S,P) } = 1 :- part(S,_).
:- needs(R,N), #sum { V,P : use(P), gives(P,R,V) } < N.
:- limit(R,N), #sum { V,P : use(P), takes(P,R,V) } > N.
:- conflict(P,Q), use(P), use(Q).
#minimize { C,P : use(P), price(P,C) }.
#show use/1.
