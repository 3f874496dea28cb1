% What to carry to a picnic: two dishes or more, no more than six kilos, and a drink with cake.
kilos(bread, 1). kilos(salad, 3). kilos(cake, 2). kilos(juice, 3).
{ carry(T) : kilos(T, K) }.
:- not 2 { carry(bread); carry(salad); carry(cake) }.
:- #sum { K, T : carry(T), kilos(T, K) } > 6.
:- carry(cake), not carry(juice).
% What is missed counts first, and then the weight.
#minimize { 2@2, salad : not carry(salad); 2@2, cake : not carry(cake) }.
#minimize { K, T : carry(T), kilos(T, K) }.
#show carry/1.
