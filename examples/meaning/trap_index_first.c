// The trap `index` of the first of two indexes: it comes before the second index is evaluated. A negative index is one too.
#include <stdio.h>
#pragma cle def P {"level":"purple"}

int grid[2][3] = {{1, 2, 3}, {4}};

int shown(int n) {
  printf("%d ", n);
  return n;
}

int main(void) {
  printf("%d\n", grid[shown(1)][shown(0)]);
  return grid[shown(-1)][shown(0)];
}
