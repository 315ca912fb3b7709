// A static local is one object, at the level of its function: it begins with its initialiser and keeps its value between calls.
#include <stdio.h>
#pragma cle def DESK {"level":"desk"}
#pragma cle def TICKET {"level":"booth","cdf":[{"remotelevel":"desk","direction":"bidirectional", \
  "guarddirective":{"operation":"allow"},"argtaints":[[]],"codtaints":["@booth"],"rettaints":["DESK"]}]}

#pragma cle TICKET
int next_ticket(int step) {
  static int ticket = 100;
  static int history[3];
  history[ticket % 3] += step;
  ticket += step;
  return ticket * 10 + history[1];
}

int visits(void) {
  static int n;
  n++;
  {
    static int n = 40;
    n += 2;
    if (n > 43) {
      return n;
    }
  }
  return n;
}

int main(void) {
  int steps[3] = {1, 5, 2};
  for (int i = 0; i < 3; i++) {
    printf("%d %d\n", next_ticket(steps[i]), visits());
  }
  return 0;
}
