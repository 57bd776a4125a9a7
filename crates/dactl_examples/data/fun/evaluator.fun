DATA Number, Variable, Plus, Times, Let, If, Less, Bind, Empty;
Eval[Number[n] env] = n;
Eval[Variable[x] env] = Find[x env];
Eval[Plus[a b] env] = IAdd[Eval[a env] Eval[b env]];
Eval[Times[a b] env] = IMul[Eval[a env] Eval[b env]];
Eval[Less[a b] env] = ILt[Eval[a env] Eval[b env]];
Eval[Let[x a b] env] = Eval[b Bind[x Eval[a env] env]];
Eval[If[a b c] env] = Choose[Eval[a env] b c env];
Choose[True b c env] = Eval[b env];
Choose[False b c env] = Eval[c env];
Find[x Bind[y v env]] = Found[IEq[x y] x v env];
Found[True x v env] = v;
Found[False x v env] = Find[x env];
MAIN = Eval[
  Let[1 Plus[Number[2] Number[3]]
  Let[2 Times[Variable[1] Variable[1]]
  If[Less[Variable[1] Variable[2]] Plus[Variable[2] Variable[1]] Number[0]]]]
  Empty];
