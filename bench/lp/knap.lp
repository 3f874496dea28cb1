item(1..n). w(I,(I*37)\ 23 + 3) :- item(I). v(I,(I*53)\ 31 + 2) :- item(I).
{ take(I) : item(I) }.
:- #sum { W,I : take(I), w(I,W) } > n*5.
#maximize { V,I : take(I), v(I,V) }.
#show take/1.
