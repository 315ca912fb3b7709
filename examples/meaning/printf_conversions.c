// The conversions of `printf`, each of which takes its number into its own type, and `putchar`.
#include <stdio.h>
#include <stdint.h>
#pragma cle def P {"level":"purple"}
#define NEWLINE '\n'

int main(void) {
  unsigned char byte = 200;
  int8_t tiny = 200;
  short low = -5;
  printf("%d %d %d %d\n", byte, tiny, low, 'A');
  printf("%d %u %x %x\n", 4294967295u, -1, 255u, -2);
  printf("%c%c%c|\n", 72, 'i', 33 + 256);
  printf("%ld %lu %lx %ld\n", -2147483648, (unsigned long)-1, 0xdeadbeefUL, 18446744073709551615ul);
  printf("%lld %llu %llx\n", -9223372036854775807LL - 1, 18446744073709551615ULL, (unsigned long long)-2);
  printf("100%% %x %lx %llx %%d\n", 0, 0L, 0LL);
  printf("tab\t\"quoted\" back\\slash \101\x42" "C" " joined\n");
  printf("");
  putchar(65 + 512);
  putchar('\'');
  putchar(-191);
  putchar(NEWLINE);
  return 0;
}
