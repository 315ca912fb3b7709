#include <stdio.h>
#pragma cle def DESK {"level":"desk"}
#pragma cle def SAFE {"level":"safe"}
#pragma cle def COUNT {"level":"desk","cdf":[{"remotelevel":"safe","direction":"bidirectional","guarddirective":{"operation":"allow"},"argtaints":[],"codtaints":["DESK"],"rettaints":["SAFE"]}]}
#pragma cle SAFE
int kept;
#pragma cle COUNT
int count(void) {
  return kept + 1;
}
int main(void) {
  printf("%d\n", count());
  return 0;
}
