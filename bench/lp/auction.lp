% Which bids win, for the most money: bid(B,bidder,price), wants(B,good), atmost(bidder,bids), needs(B,C) (B wins only with C) are given.
{ win(B) : bid(B,_,_) }.
:- wants(_,G), 2 { win(B) : wants(B,G) }.
:- atmost(W,K), K+1 { win(B) : bid(B,W,_) }.
:- needs(B,C), win(B), not win(C).
#maximize { P,B : win(B), bid(B,_,P) }.
#show win/1.
