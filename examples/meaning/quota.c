// A quota: the policy lets two requests through. A blocked call gives zero, the caller's array stays, the function isn't run.
#include <stdio.h>
#pragma cle def OFFICE {"level":"office"}
#pragma cle def LAB {"level":"lab"}
#pragma cle def MEASURE {"level":"lab","cdf":[{"remotelevel":"office","direction":"bidirectional", \
  "guarddirective":{"operation":"allow"},"argtaints":[[],[]],"codtaints":["LAB"],"rettaints":["OFFICE"]}]}
#pragma cle def USES {"level":"lab","cdf":[{"remotelevel":"office","direction":"bidirectional", \
  "guarddirective":{"operation":"allow"},"argtaints":[],"codtaints":["LAB"],"rettaints":["OFFICE"]}]}

#pragma cle LAB
int used;

#pragma cle MEASURE
int measure(int probe, int sample[2]) {
  used++;
  sample[0] = probe;
  sample[1] = used;
  return probe * 10 + used;
}

#pragma cle USES
int uses(void) {
  return used;
}

int main(void) {
  int sample[2] = {-1, -1};
  for (int i = 1; i <= 4; i++) {
    int got = measure(i, sample);
    printf("%d %d %d\n", got, sample[0], sample[1]);
  }
  printf("%d\n", uses());
  return 0;
}
