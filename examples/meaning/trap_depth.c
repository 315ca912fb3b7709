// The trap `depth`: a level has at most 256 calls open. Those of another level don't count.
#include <stdio.h>
#pragma cle def P {"level":"purple"}
#pragma cle def DEPTH {"level":"orange","cdf":[{"remotelevel":"purple","direction":"bidirectional", \
  "guarddirective":{"operation":"allow"},"argtaints":[[]],"codtaints":[],"rettaints":["P"]}]}

#pragma cle DEPTH
int depth(int n) {
  return n == 0 ? 0 : 1 + depth(n - 1);
}

int main(void) {
  printf("%d\n", depth(255));
  printf("%d\n", depth(255));
  printf("%d\n", depth(256));
  return 0;
}
