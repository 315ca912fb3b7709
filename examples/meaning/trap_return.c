// The trap `return`: a function with a result reaches its end. Its line is that of the function's name.
#include <stdio.h>
#pragma cle def P {"level":"purple"}

int
grade(int points) {
  if (points > 50) {
    return 1;
  }
  if (points > 20) {
    return 2;
  }
}

int main(void) {
  int points[4] = {60, 30, 10, 99};
  for (int i = 0; i < 4; i++) {
    printf("%d\n", grade(points[i]));
  }
}
