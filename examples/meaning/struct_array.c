// Arrays of structs: short initialisers, whole elements copied, an array of structs sent to another level and taken back.
#include <stdio.h>
#pragma cle def SHOP {"level":"shop"}
#pragma cle def DEPOT {"level":"depot"}
#pragma cle def RESTOCK {"level":"depot","cdf":[{"remotelevel":"shop","direction":"bidirectional", \
  "guarddirective":{"operation":"allow"},"argtaints":[[],[]],"codtaints":["DEPOT"],"rettaints":[]}]}

struct item {
  unsigned char code;
  int count;
  short sizes[2];
};

#pragma cle DEPOT
int ordered;

#pragma cle RESTOCK
void restock(struct item shelf[3], int least) {
  for (int i = 0; i < 3; i++) {
    if (shelf[i].count < least) {
      ordered += least - shelf[i].count;
      shelf[i].count = least;
      shelf[i].sizes[1] = ordered;
    }
  }
}

void show(struct item shelf[3]) {
  for (int i = 0; i < 3; i++) {
    printf("%c %d %d %d\n", shelf[i].code, shelf[i].count, shelf[i].sizes[0], shelf[i].sizes[1]);
  }
}

int main(void) {
  struct item shelf[3] = {{'a', 5, {1, 2}}, {'b'}, {'c', 1, {7}}};
  shelf[1] = shelf[0];
  shelf[1].code += 1;
  restock(shelf, 4);
  show(shelf);
  restock(shelf, 6);
  show(shelf);
  return 0;
}
