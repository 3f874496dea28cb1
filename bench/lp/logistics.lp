% Packages that trucks carry over roads in n steps, the fewest drives: road/2, truck(T,place), room(T,packages), package(P,from,to) are given.
place(L) :- road(L,_).
at(T,L,0) :- truck(T,L).
lies(P,L,0) :- package(P,L,_).
{ drive(T,M,S) : road(L,M) } 1 :- at(T,L,S-1), S = 1..n.
{ load(P,T,S) : at(T,L,S-1) } 1 :- lies(P,L,S-1), S = 1..n.
{ unload(P,T,S) } :- in(P,T,S-1), S = 1..n.
at(T,M,S) :- drive(T,M,S).
at(T,L,S) :- at(T,L,S-1), not drive(T,_,S), S = 1..n.
in(P,T,S) :- load(P,T,S).
in(P,T,S) :- in(P,T,S-1), not unload(P,T,S), S = 1..n.
lies(P,L,S) :- unload(P,T,S), at(T,L,S-1).
lies(P,L,S) :- lies(P,L,S-1), not load(P,_,S), S = 1..n.
:- drive(T,_,S), load(_,T,S).
:- drive(T,_,S), unload(_,T,S).
:- room(T,K), S = 1..n, K+1 { in(P,T,S) : package(P,_,_) }.
:- package(P,_,L), not lies(P,L,n).
#minimize { 1,T,S : drive(T,_,S) }.
#show drive/3. #show load/3. #show unload/3.
