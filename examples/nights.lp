% Four nights, each of which ann or bob is on duty: ann isn't on the first, and of the first three nobody has two in a row.
% What every plan has is asked for, by --mode cautious --names.
{ ann(1..4) }.
:- ann(1).
:- ann(N), ann(N+1), N = 1..2.
:- not ann(N), not ann(N+1), N = 1..2.
#show ann/1.
