% Five lectures in three hours and two rooms, with as few wishes unmet as can be.
lecture(logic; algebra; music; chess; drama).
hour(1..3).
1 { at(L,H) : hour(H) } 1 :- lecture(L).
:- hour(H), 3 { at(L,H) : lecture(L) }.
% One teacher can't be in two rooms.
same(logic,algebra). same(music,drama).
:- at(L,H), at(M,H), same(L,M).
wish(logic,1). wish(algebra,1). wish(music,2). wish(chess,1). wish(drama,3).
#minimize { 1,L : wish(L,H), not at(L,H) }.
#show at/2.
