% What a bicycle may carry besides: of all forms ten are asked for, by --models 10.
{ lamp; bell; lock; pump; rack; basket }.
% A basket wants a rack.
:- basket, not rack.
#show lamp/0. #show bell/0. #show lock/0. #show pump/0. #show rack/0. #show basket/0.
