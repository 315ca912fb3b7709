// A veil: a house guard hides the position in the first two replies, and then lets it pass.
#include <stdio.h>
#pragma cle def TOWER {"level":"tower"}
#pragma cle def POSITION {"level":"plane","cdf":[{"remotelevel":"tower","direction":"bidirectional", \
  "guarddirective":{"operation":"allow"},"argtaints":[[]],"codtaints":["@plane"],"rettaints":["TOWER"]}]}

struct fix {
  short x;
  short y;
  int height;
};

int asked;

#pragma cle POSITION
struct fix position(int time) {
  struct fix now = {10 + time, 20 - time};
  asked++;
  now.height = 1000 + asked;
  return now;
}

int main(void) {
  for (int time = 0; time < 3; time++) {
    struct fix seen = position(time);
    printf("%d %d %d\n", seen.x, seen.y, seen.height);
  }
  return 0;
}
