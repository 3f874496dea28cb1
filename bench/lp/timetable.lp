% Courses into slots and rooms: course(C,size,teacher), room(R,size), slot(1..n), clash(C,D), dislikes(T,S) are given.
slot(1..n).
{ at(C,S) : slot(S) } = 1 :- course(C,_,_).
{ in(C,R) : room(R,_) } = 1 :- course(C,_,_).
:- at(C,S), at(D,S), in(C,R), in(D,R), C < D.
:- at(C,S), at(D,S), course(C,_,T), course(D,_,T), C < D.
tight(C,Z-M) :- in(C,R), course(C,Z,_), room(R,M), Z > M.
busy(T,S) :- at(C,S), course(C,_,T).
alone(T,S) :- busy(T,S), not busy(T,S-1), not busy(T,S+1).
#minimize { V@4,C : tight(C,V) }.
#minimize { W@3,C,D : clash(C,D,W), at(C,S), at(D,S) }.
#minimize { 1@2,T,S : busy(T,S), dislikes(T,S) }.
#minimize { 1@1,T,S : alone(T,S) }.
#show at/2. #show in/2.
