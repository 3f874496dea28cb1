% Two rules that exclude each other: two stable models.
a :- not b.
b :- not a.
