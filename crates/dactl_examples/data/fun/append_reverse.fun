DATA Cons, Nil, Pair;
Append[Nil y] = y;
Append[Cons[h t] y] = Cons[h Append[t y]];
Reverse[x] = Onto[x Nil];
Onto[Nil a] = a;
Onto[Cons[h t] a] = Onto[t Cons[h a]];
MAIN = Pair[Append[Cons[1 Cons[2 Nil]] Cons[3 Nil]] Reverse[Cons[1 Cons[2 Cons[3 Nil]]]]];
