Fibonacci[0] = 0;
Fibonacci[1] = 1;
Fibonacci[n] = IAdd[Fibonacci[ISub[n 1]] Fibonacci[ISub[n 2]]];
MAIN = Fibonacci[15];
