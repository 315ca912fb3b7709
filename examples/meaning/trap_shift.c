// The trap `shift`: a count of the left operand's width or more. An unsigned left operand may lose bits before that.
#include <stdio.h>
#pragma cle def P {"level":"purple"}

unsigned int bit(int n) {
  return 3u
      << n;
}

int main(void) {
  for (int n = 30; n < 99; n++) {
    printf("%u\n", bit(n));
  }
  return 0;
}
