// The trap `index`: each index is checked at its `[`, before the right side of the store is evaluated.
#include <stdio.h>
#pragma cle def P {"level":"purple"}

int grid[2][3];

int shown(int n) {
  printf("%d ", n);
  return n;
}

int main(void) {
  grid[shown(1)][shown(2)] = shown(40);
  printf("%d\n", grid[1][2]);
  grid[shown(0)]
      [shown(3)]
      = shown(50);
  return 0;
}
