// The order of evaluation: operands and arguments from left to right; of a store its indexes, then the old value, then the right side.
#include <stdio.h>
#pragma cle def P {"level":"purple"}
#pragma cle def TRACE {"level":"log","cdf":[{"remotelevel":"purple","direction":"bidirectional", \
  "guarddirective":{"operation":"allow"},"argtaints":[[]],"codtaints":[],"rettaints":["P"]}]}

#pragma cle TRACE
int trace(int n) {
  printf("%d ", n);
  return n;
}

int total = 1;

int raised(int by) {
  total = total + 50;
  return by;
}

int joined(int a, int b, int c) {
  return a * 100 + b * 10 + c;
}

int main(void) {
  int v[4] = {0, 10, 20, 30};
  v[trace(1)] = trace(2) + v[trace(3)];
  v[trace(0)] += trace(4) * trace(5);
  int d = trace(6) - trace(7) * trace(8);
  printf("%d %d %d %d %d\n", trace(9), v[0], v[1], d, trace(10));
  int m[2][2] = {{1, 2}, {3, 4}};
  m[trace(1)][trace(0)] = m[trace(0)][trace(1)];
  m[trace(0)][trace(1)]++;
  printf("%d %d %d\n", m[1][0], m[0][1], joined(trace(7), trace(8), trace(9)));
  total += raised(1);
  printf("%d\n", total);
  total = total + raised(3) + total;
  printf("%d %d\n", total, trace(5) < trace(4) == trace(3));
  v[raised(2)] = total;
  printf("%d\n", v[2]);
  return 0;
}
