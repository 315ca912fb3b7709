// The vault keeps the balances and counts the entries; the teller posts entries and asks for all balances.
#include <stdio.h>
#pragma cle def TELLER {"level":"teller"}
#pragma cle def VAULT {"level":"vault"}
#pragma cle def SHOWN {"level":"teller","cdf":[{"remotelevel":"vault","direction":"egress","guarddirective":{"operation":"allow"}}]}
#pragma cle def POST {"level":"vault","cdf":[{"remotelevel":"teller","direction":"bidirectional", \
  "guarddirective":{"operation":"allow"},"argtaints":[[]],"codtaints":["VAULT","@vault"],"rettaints":["TELLER"]}]}
#pragma cle def SUMS {"level":"vault","cdf":[{"remotelevel":"teller","direction":"bidirectional", \
  "guarddirective":{"operation":"allow"},"argtaints":[["SHOWN"]],"codtaints":["VAULT"],"rettaints":[]}]}
struct entry {
  long amount;
  short account;
};
#pragma cle VAULT
long balances[4];
#pragma cle POST
long post(struct entry e) {
  static int count;
  count = count + 1;
  balances[e.account] = balances[e.account] + e.amount;
  return balances[e.account];
}
#pragma cle SUMS
void sums(long v[4]) {
  for (int i = 0; i < 4; i++) {
    v[i] = balances[i];
  }
}
int main(void) {
  struct entry e = {250, 1};
  long all[4];
  printf("%ld\n", post(e));
  e.amount = -100;
  printf("%ld\n", post(e));
  sums(all);
  printf("%ld %ld\n", all[0], all[1]);
  return 0;
}
