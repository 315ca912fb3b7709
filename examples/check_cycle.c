#pragma cle def HOME {"level":"north","cdf":[{"remotelevel":"south","direction":"bidirectional","guarddirective":{"operation":"allow"},"argtaints":[[]],"codtaints":[],"rettaints":[]}]}
#pragma cle def STEP {"level":"east","cdf":[{"remotelevel":"north","direction":"bidirectional","guarddirective":{"operation":"allow"},"argtaints":[[]],"codtaints":[],"rettaints":[]}]}
#pragma cle def TURN {"level":"south","cdf":[{"remotelevel":"east","direction":"bidirectional","guarddirective":{"operation":"allow"},"argtaints":[[]],"codtaints":[],"rettaints":[]}]}
#pragma cle HOME
void home(int n) {
  putchar(n);
}
#pragma cle TURN
void turn(int n) {
  home(n + 1);
}
#pragma cle STEP
void step(int n) {
  turn(n);
}
int main(void) {
  step(64);
  return 0;
}
