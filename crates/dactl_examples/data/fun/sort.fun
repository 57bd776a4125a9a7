DATA Cons, Nil;
Sort[Nil] = Nil;
Sort[Cons[h t]] = Insert[h Sort[t]];
Insert[x Nil] = Cons[x Nil];
Insert[x Cons[h t]] = Place[ILt[x h] x h t];
Place[True x h t] = Cons[x Cons[h t]];
Place[False x h t] = Cons[h Insert[x t]];
MAIN = Sort[Cons[5 Cons[2 Cons[8 Cons[1 Cons[9 Cons[3 Nil]]]]]]];
