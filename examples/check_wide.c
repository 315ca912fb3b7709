#pragma cle def P {"level":"purple"}
#pragma cle def SEND {"level":"orange","cdf":[{"remotelevel":"purple","direction":"bidirectional","guarddirective":{"operation":"allow"},"argtaints":[[],[]],"codtaints":[],"rettaints":[]}]}
struct page {
  long words[512];
};
#pragma cle SEND
void send(struct page p, char last) {
  putchar(last);
}
int main(void) {
  struct page p;
  send(p, 65);
  return 0;
}
