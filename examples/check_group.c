#include <stdio.h>
#pragma cle def LOW {"level":"low"}
#pragma cle def HIGH {"level":"high"}
#pragma cle LOW
int shown;
#pragma cle HIGH
int hidden;
void show(void) {
  printf("%d\n", shown);
}
void leak(void) {
  shown = hidden;
}
int main(void) {
  leak();
  show();
  return 0;
}
