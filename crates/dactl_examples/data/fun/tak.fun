Tak[x y z] = Step[ILt[y x] x y z];
Step[False x y z] = z;
Step[True x y z] = Tak[Tak[ISub[x 1] y z] Tak[ISub[y 1] z x] Tak[ISub[z 1] x y]];
MAIN = Tak[8 4 2];
