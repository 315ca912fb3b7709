// `do` runs its body before its test. `continue` goes to the test, and in a `for` to the part behind the body.
#include <stdio.h>
#pragma cle def P {"level":"purple"}

int digits(int n) {
  int count = 0;
  do {
    count++;
    n /= 10;
  } while (n != 0);
  return count;
}

int main(void) {
  int n = 0;
  do {
    n++;
    if (n % 3 == 0) {
      continue;
    }
    if (n > 7) {
      break;
    }
    printf("%d ", n);
  } while (n < 20);
  printf("| %d\n", n);
  for (int i = 0; i < 6; i++) {
    if (i == 2) {
      continue;
    }
    int k = i;
    while (1) {
      k--;
      if (k > 2) {
        continue;
      }
      if (k < 0) {
        break;
      }
      printf("%d", k);
    }
    printf(",");
  }
  do printf(" %d %d\n", digits(0), digits(-12345)); while (0);
  int left = 7;
  do {
    left -= 2;
    if (left > 2) continue;
    left = 0;
  } while (left);
  printf("%d\n", left);
  return digits(2147483647);
}
