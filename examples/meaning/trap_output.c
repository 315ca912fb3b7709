// The trap `output`: a level writes at most 1,000,000 bytes. Bytes go out one by one, so the last line is cut.
#include <stdio.h>
#pragma cle def P {"level":"purple"}
#pragma cle def NOTE {"level":"orange","cdf":[{"remotelevel":"purple","direction":"bidirectional", \
  "guarddirective":{"operation":"allow"},"argtaints":[],"codtaints":[],"rettaints":[]}]}

#pragma cle NOTE
void note(void) {
  printf("begun\n");
}

int main(void) {
  note();
  printf("1234567");
  while (1) {
    printf("The quick brown fox jumps over the lazy dog and is back again.\n");
  }
  return 0;
}
