% The fewest broken gates that explain what a circuit gave: gate(G,kind,A,B), input(run,wire,value), seen(run,wire,value) are given.
{ broken(G) : gate(G,_,_,_) }.
run(R) :- input(R,_,_).
on(R,W) :- input(R,W,1).
right(R,G) :- run(R), gate(G,and,A,B), on(R,A), on(R,B).
right(R,G) :- run(R), gate(G,or,A,_), on(R,A).
right(R,G) :- run(R), gate(G,or,_,B), on(R,B).
right(R,G) :- run(R), gate(G,xor,A,B), on(R,A), not on(R,B).
right(R,G) :- run(R), gate(G,xor,A,B), not on(R,A), on(R,B).
right(R,G) :- run(R), gate(G,nand,A,_), not on(R,A).
right(R,G) :- run(R), gate(G,nand,_,B), not on(R,B).
on(R,G) :- right(R,G), not broken(G).
{ on(R,G) } :- run(R), broken(G).
:- seen(R,W,1), not on(R,W).
:- seen(R,W,0), on(R,W).
#minimize { 1,G : broken(G) }.
#show broken/1.
