% A robot in a row of four rooms. The key lies in room 1, and the door to room 4 wants it. When can it be in room 4, first?
time(0..7). room(1..4).
at(2,0).
{ at(R-1,T+1); at(R,T+1); at(R+1,T+1) } = 1 :- at(R,T), time(T+1), room(R).
:- at(R,T), not room(R).
has_key(T) :- at(1,T).
has_key(T+1) :- has_key(T), time(T+1).
:- at(4,T), not has_key(T).
there(T) :- at(4,T).
#show there/1.
