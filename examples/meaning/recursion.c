// Recursion within a level, with an array that each call changes in place, and two functions that call each other.
#include <stdio.h>
#pragma cle def CLIENT {"level":"client"}
#pragma cle def SORT {"level":"sorter","cdf":[{"remotelevel":"client","direction":"bidirectional", \
  "guarddirective":{"operation":"allow"},"argtaints":[[]],"codtaints":[],"rettaints":["CLIENT"]}]}

void exchange(int v[8], int i, int j) {
  int kept = v[i];
  v[i] = v[j];
  v[j] = kept;
}

// sorts the elements at from, .. to - 1 and gives the number of calls that it took
int sort(int v[8], int from, int to) {
  if (to - from < 2) {
    return 1;
  }
  int border = from;
  for (int i = from + 1; i < to; i++) {
    if (v[i] < v[from]) {
      border++;
      exchange(v, border, i);
    }
  }
  exchange(v, from, border);
  return 1 + sort(v, from, border) + sort(v, border + 1, to);
}

#pragma cle SORT
int sort_all(int v[8]) {
  return sort(v, 0, 8);
}

int is_odd(int n);

int is_even(int n) {
  return n == 0 ? 1 : is_odd(n - 1);
}

int is_odd(int n) {
  return n == 0 ? 0 : is_even(n - 1);
}

int main(void) {
  int v[8] = {5, -3, 9, 0, 9, 2, -8, 1};
  int calls = sort_all(v);
  for (int i = 0; i < 8; i++) {
    printf("%d ", v[i]);
  }
  printf("%d\n", calls);
  printf("%d %d\n", is_even(40), is_odd(40));
  return 0;
}
