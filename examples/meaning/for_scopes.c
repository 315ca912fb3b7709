// The scopes of `for`: what its head declares is known in its test, its last part and its body, and nowhere else.
#include <stdio.h>
#pragma cle def P {"level":"purple"}

int main(void) {
  int i = 100;
  for (int i = 0, sum = 0; i < 4; i++) {
    int square;
    square += i * i;
    sum += square;
    for (int i = 5; i > 3; i--) {
      printf("%d", i);
    }
    printf(" %d %d\n", square, sum);
  }
  printf("%d\n", i);
  for (i = 3; i; i--) ;
  for (; i < 2;) i++;
  for (;;) {
    if (i == 9) break;
    i++;
  }
  printf("%d\n", i);
  return 0;
}
