// The trap `frames`: what a level's calls of other levels may cost in all is 8,388,608 bytes of headers and payloads.
#include <stdio.h>
#pragma cle def CAMERA {"level":"camera"}
#pragma cle def KEEP {"level":"disk","cdf":[{"remotelevel":"camera","direction":"bidirectional", \
  "guarddirective":{"operation":"allow"},"argtaints":[[]],"codtaints":["@disk"],"rettaints":[]}]}

int kept;

#pragma cle KEEP
void keep(unsigned long long image[512]) {
  kept++;
  image[511] = kept;
}

int main(void) {
  unsigned long long image[512];
  for (int i = 0; i < 2000; i++) {
    keep(image);
    putchar('.');
  }
  printf("%llu\n", image[511]);
  return 0;
}
