// An array is passed on through two calls: within a level it is the caller's own, between levels it is copied there and back.
#include <stdio.h>
#pragma cle def FIELD {"level":"field"}
#pragma cle def RELAYED {"level":"relay"}
#pragma cle def RELAY {"level":"relay","cdf":[{"remotelevel":"field","direction":"bidirectional", \
  "guarddirective":{"operation":"allow"},"argtaints":[[]],"codtaints":["RELAYED"],"rettaints":["FIELD"]}]}
#pragma cle def TOTAL {"level":"archive"}
#pragma cle def STORE {"level":"archive","cdf":[{"remotelevel":"relay","direction":"bidirectional", \
  "guarddirective":{"operation":"allow"},"argtaints":[[],[]],"codtaints":["TOTAL"],"rettaints":["RELAYED"]}]}

#pragma cle TOTAL
int total;

#pragma cle STORE
int store(int samples[4], int from) {
  for (int i = from; i < 4; i++) {
    total += samples[i];
    samples[i] = total;
  }
  return total;
}

void smooth(int samples[4], int at) {
  samples[at] = (samples[at - 1] + samples[at]) / 2;
}

#pragma cle RELAY
int relay(int samples[4]) {
  smooth(samples, 2);
  samples[0] = store(samples, 2);
  return samples[3];
}

int main(void) {
  int samples[4] = {10, 20, 40, 8};
  for (int i = 0; i < 2; i++) {
    int latest = relay(samples);
    printf("%d: %d %d %d %d\n", latest, samples[0], samples[1], samples[2], samples[3]);
  }
  return 0;
}
