#include <stdio.h>
#pragma cle def P {"level":"purple"}
int seen[3];
int note(int n) {
  seen[0] = n;
  return n;
}
void copy(int v[3], int n) {
  v[1] = note(n);
}
int main(void) {
  int own[3];
  copy(own, 1);
  copy(seen, 2);
  printf("%d\n", seen[1]);
  return 0;
}
