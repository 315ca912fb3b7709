// Shadowing: an inner declaration hides an outer one from its own initialiser on; tags and members have names of their own.
#include <stdio.h>
#pragma cle def P {"level":"purple"}

struct level {
  int level;
};

int level = 1;

int twice(int level) {
  return 2 * level;
}

int outer(void) {
  return level;
}

int main(void) {
  printf("%d\n", level);
  int level = level + 5;
  printf("%d\n", level);
  {
    int level = twice(level + 1);
    level++;
    printf("%d\n", level);
  }
  for (int level = 8; level < 10; level++) {
    int level = 70;
    level++;
    printf("%d\n", level);
  }
  struct level box = {level};
  box.level += twice(level);
  printf("%d %d %d\n", level, box.level, outer());
  return level;
}
