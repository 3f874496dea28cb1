% What of a computer can be had together: a customer asks for parts, and is told which of them exclude one another.
{ disk; card; fan; board; quiet_case }.
:- #sum { 20 : disk; 150 : card; 10 : fan; 100 : board } > 260.
cooled :- fan.
:- card, not cooled.
% A card is heard in a quiet case, and so are a fan and a disk together.
:- quiet_case, card.
:- quiet_case, fan, disk.
#show disk/0. #show card/0. #show fan/0. #show board/0. #show quiet_case/0.
