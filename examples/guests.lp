% Who is invited to a party: ann and bob never come together, and cid comes only where bob does.
{invited(ann); invited(bob); invited(cid)}.
:- invited(ann), invited(bob).
:- invited(cid), not invited(bob).
#show invited/1.
