% A computer within its power supply's 260 watts, of least price.
{ disk; card; fan; board }.
:- #sum { 20 : disk; 150 : card; 10 : fan; 100 : board } > 260.
:- not board.
% A graphics card wants a fan.
cooled :- fan.
:- card, not cooled.
% Storage or graphics is wanted.
:- not disk, not card.
#minimize { 50 : disk; 200 : card; 15 : fan; 120 : board }.
#show disk/0. #show card/0. #show fan/0. #show board/0.
