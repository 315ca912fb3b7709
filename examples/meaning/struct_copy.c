// Structs are copied: by an initialiser, by `=`, as an argument and as a result, within a level and between levels.
#include <stdio.h>
#pragma cle def DESK {"level":"desk","cdf":[{"remotelevel":"sensor","direction":"egress","guarddirective":{"operation":"allow"}}]}
#pragma cle def SENSOR {"level":"sensor"}
#pragma cle def CALIBRATE {"level":"sensor","cdf":[{"remotelevel":"desk","direction":"bidirectional", \
  "guarddirective":{"operation":"allow"},"argtaints":[["DESK"],[]],"codtaints":["SENSOR"],"rettaints":["DESK"]}]}

struct reading {
  short raw[2];
  long scaled;
};

#pragma cle SENSOR
struct reading last;

#pragma cle CALIBRATE
struct reading calibrate(struct reading r, int factor) {
  r.scaled = (r.raw[0] + r.raw[1]) * factor;
  last = r;
  last.raw[0] = 0;
  return r;
}

struct reading swapped(struct reading r) {
  short first = r.raw[0];
  r.raw[0] = r.raw[1];
  r.raw[1] = first;
  return r;
}

void show(struct reading r) {
  printf("%d %d %ld\n", r.raw[0], r.raw[1], r.scaled);
  r.scaled = -1;
}

int main(void) {
  struct reading a = {{3, -4}};
  struct reading b = a;
  b.raw[0] = 10;
  struct reading c;
  c = swapped(b);
  struct reading d = calibrate(c, 100);
  d.raw[1] += 1;
  show(a);
  show(b);
  show(c);
  show(d);
  printf("%d\n", swapped(calibrate(d, 2)).raw[0]);
  return 0;
}
