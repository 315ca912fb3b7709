// `&&`, `||` and `?:` evaluate only the operands that they need; here each evaluation is a call of another level.
#include <stdio.h>
#pragma cle def DOOR {"level":"door"}
#pragma cle def OFFICE {"level":"office"}
#pragma cle def ALLOWED {"level":"office","cdf":[{"remotelevel":"door","direction":"bidirectional", \
  "guarddirective":{"operation":"allow"},"argtaints":[[]],"codtaints":["OFFICE"],"rettaints":["DOOR"]}]}

#pragma cle OFFICE
int checks;

#pragma cle ALLOWED
int allowed(int badge) {
  checks++;
  return badge % 2;
}

int main(void) {
  int a = allowed(1) && allowed(2);
  int b = allowed(2) && allowed(3);
  int c = allowed(3) || allowed(4);
  int d = allowed(4) || allowed(6);
  int e = 0 || !allowed(5) || allowed(7);
  int f = a ? allowed(8) : allowed(9);
  int g = d != 0 && 10 / d > 1;
  int n = 3;
  while (n > 0 && allowed(n)) {
    n -= 2;
  }
  printf("%d%d%d%d%d%d%d %d\n", a, b, c, d, e, f, g, n);
  return 0;
}
