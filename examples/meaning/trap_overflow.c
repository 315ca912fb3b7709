// The trap `overflow`: it names the level of the function and the line of the operator. What was written before stands.
#include <stdio.h>
#pragma cle def CLIENT {"level":"client","cdf":[{"remotelevel":"bank","direction":"egress","guarddirective":{"operation":"allow"}}]}
#pragma cle def GROW {"level":"bank","cdf":[{"remotelevel":"client","direction":"bidirectional", \
  "guarddirective":{"operation":"allow"},"argtaints":[["CLIENT"],[]],"codtaints":[],"rettaints":["CLIENT"]}]}

#pragma cle GROW
int grow(int money, int percent) {
  return money
      + money / 100
      * percent;
}

int main(void) {
  int money = 1000000000;
  for (int year = 1; year < 9; year++) {
    money = grow(money, 40);
    printf("%d: %d\n", year, money);
  }
  return 0;
}
