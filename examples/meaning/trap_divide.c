// The trap `divide` below two open calls: each gets a broken reply, the innermost first.
#include <stdio.h>
#pragma cle def FRONT {"level":"front"}
#pragma cle def MIDDLE {"level":"middle"}
#pragma cle def SHARE {"level":"middle","cdf":[{"remotelevel":"front","direction":"bidirectional", \
  "guarddirective":{"operation":"allow"},"argtaints":[[],[]],"codtaints":["MIDDLE"],"rettaints":["FRONT"]}]}
#pragma cle def DIVIDE {"level":"back","cdf":[{"remotelevel":"middle","direction":"bidirectional", \
  "guarddirective":{"operation":"allow"},"argtaints":[[],[]],"codtaints":[],"rettaints":["MIDDLE"]}]}

#pragma cle DIVIDE
int divide(int a, int b) {
  printf("%d/%d ", a, b);
  int whole = a / b;
  return whole;
}

#pragma cle SHARE
int share(int all, int among) {
  int each = divide(all, among);
  printf("%d ", each);
  return each + 1;
}

int main(void) {
  for (int n = 2; n > -2; n--) {
    printf("%d\n", share(12, n));
  }
  return 0;
}
