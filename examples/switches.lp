% A lamp with two switches, which are set by each query in turn.
#external a. [free]
#external b. [free]
#external power. [free]
lit :- power, a, not b.
lit :- power, b, not a.
#show a/0. #show b/0. #show power/0. #show lit/0.
