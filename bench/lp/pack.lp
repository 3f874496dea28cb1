% Knapsack of several limits: item(I,value), weight(I,D,W), limit(D,W) are given.
{ take(I) : item(I,_) }.
:- limit(D,L), #sum { W,I : take(I), weight(I,D,W) } > L.
#maximize { V,I : take(I), item(I,V) }.
#show take/1.
