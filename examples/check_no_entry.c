#include <stdio.h>
#pragma cle def FRONT {"level":"front"}
#pragma cle def BACK {"level":"back"}
#pragma cle def LOOKUP {"level":"back","cdf":[{"remotelevel":"back","direction":"bidirectional","guarddirective":{"operation":"allow"},"argtaints":[[]],"codtaints":["BACK"],"rettaints":["BACK"]}]}
#pragma cle BACK
int table[8];
#pragma cle LOOKUP
int lookup(int at) {
  return table[at];
}
int main(void) {
  int first = lookup(0);
  printf("%d\n", first + lookup(7));
  return 0;
}
