// The trap `steps`: each level has so many function entries and tests of loops. Run with 9, in a `do`: the line is that of `do`.
#include <stdio.h>
#pragma cle def BOSS {"level":"boss"}
#pragma cle def WORK {"level":"worker","cdf":[{"remotelevel":"boss","direction":"bidirectional", \
  "guarddirective":{"operation":"allow"},"argtaints":[[]],"codtaints":[],"rettaints":["BOSS"]}]}

#pragma cle WORK
int countdown(int from) {
  int turns = 0;
  do {
    turns++;
    from--;
  } while (from > 0);
  return turns;
}

int main(void) {
  for (int n = 2; n < 9; n++) {
    printf("%d\n", countdown(n));
  }
  return 0;
}
