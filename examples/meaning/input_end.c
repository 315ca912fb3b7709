// `getchar` gives the bytes of the input of its function's level, from 0 to 255, and -1 from the end on.
#include <stdio.h>
#pragma cle def DESK {"level":"desk"}
#pragma cle def NEXT {"level":"vault","cdf":[{"remotelevel":"desk","direction":"bidirectional", \
  "guarddirective":{"operation":"allow"},"argtaints":[],"codtaints":["@vault"],"rettaints":["DESK"]}]}

#pragma cle NEXT
int next_in_vault(void) {
  return getchar();
}

int main(void) {
  int sum = 0;
  int c = getchar();
  while (c != -1) {
    sum += c;
    printf("%d ", c);
    c = getchar();
  }
  printf("%d %d\n", sum, getchar());
  printf("%d %d %d\n", next_in_vault(), next_in_vault(), next_in_vault());
  return 0;
}
