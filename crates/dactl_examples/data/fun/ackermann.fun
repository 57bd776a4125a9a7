Ackermann[0 n] = IAdd[n 1];
Ackermann[m 0] = Ackermann[ISub[m 1] 1];
Ackermann[m n] = Ackermann[ISub[m 1] Ackermann[m ISub[n 1]]];
MAIN = Ackermann[2 6];
