// Blocks: a request that the annotation blocks isn't served; behind a reply that the policy blocks, what was done stands.
#include <stdio.h>
#pragma cle def TILL {"level":"till"}
#pragma cle def BANK {"level":"bank"}
#pragma cle def OPEN {"level":"bank","cdf":[{"remotelevel":"till","direction":"bidirectional", \
  "guarddirective":{"operation":"allow"},"argtaints":[[],[]],"codtaints":["BANK"],"rettaints":["TILL"]}]}
#pragma cle def SHUT {"level":"bank","cdf":[{"remotelevel":"till","direction":"bidirectional", \
  "guarddirective":{"operation":"block"},"argtaints":[[]],"codtaints":["BANK"],"rettaints":["TILL"]}]}

struct slip {
  int before;
  int after;
};

#pragma cle BANK
int balance = 100;

#pragma cle OPEN
struct slip withdraw(int amount, int notes[2]) {
  struct slip s;
  s.before = balance;
  balance -= amount;
  s.after = balance;
  notes[0] = amount / 20;
  notes[1] = amount % 20 / 10;
  return s;
}

#pragma cle SHUT
int set_balance(int n) {
  balance = n;
  return 1;
}

#pragma cle OPEN
struct slip show(int least, int notes[2]) {
  struct slip s = {balance, least};
  notes[1] = balance - least;
  return s;
}

int main(void) {
  int notes[2] = {7, 8};
  struct slip s = {1, 1};
  s = withdraw(30, notes);
  printf("%d %d %d %d\n", s.before, s.after, notes[0], notes[1]);
  printf("%d\n", set_balance(1000));
  s = show(50, notes);
  printf("%d %d %d %d\n", s.before, s.after, notes[0], notes[1]);
  return 0;
}
