% An external that is free, one that is true; and an output under a condition.
#external switch. [free]
#external power. [true]
light :- switch, power.
#show switch/0.
#show light/0.
#show "on and lit" : light.
