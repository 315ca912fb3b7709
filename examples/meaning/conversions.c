// Conversions between integer types: promotions, the usual conversions, casts that wrap, shifts, quotients towards zero.
#include <stdio.h>
#include <stdint.h>
#pragma cle def P {"level":"purple"}

unsigned char wide_to_byte(long n) {
  return n;
}

int main(void) {
  unsigned char byte = 255;
  byte++;
  char letter = 'z';
  letter += 100;
  short half = (short)70000;
  printf("%d %d %d %d\n", byte, letter, half, wide_to_byte(-1));
  printf("%d %d %d\n", -1 < 1u, -1 < 1L, (unsigned char)200 < (char)-56);
  printf("%u %u %lu\n", 4294967295u + 1u, 3u - 4u, 4294967295u + 1L);
  printf("%d %d %d %d\n", -7 / 2, -7 % 2, 7 / -2, 7 % -2);
  printf("%d %d %u %lx\n", -16 >> 2, 1 << 4, 1u << 31, 1ul << 63);
  printf("%u %d %ld %d\n", ~0u, ~5, -2147483648, !7);
  printf("%llu %lu\n", 18446744073709551615u * 2ull, (uint64_t)(int32_t)0x80000000);
  printf("%d %d %x\n", 5 & 3 ^ 6 | 8, '\377', 017 + 0x1F);
  uint16_t port = 65535;
  port += 2;
  int64_t sum = (port ? 1 : 2u) - 2;
  printf("%u %ld\n", port, sum);
  return -(byte - 300);
}
