% Subsets of k members whose weights sum to s: weight(I,W) is given.
{ take(I) : weight(I,_) } = k.
:- #sum { W,I : take(I), weight(I,W) } != s.
#show take/1.
