// Redaction by a policy: the first rule that matches decides, a path names all integers under it, a later field wins.
#include <stdio.h>
#pragma cle def CLINIC {"level":"clinic"}
#pragma cle def REPORT {"level":"study","cdf":[{"remotelevel":"clinic","direction":"bidirectional", \
  "guarddirective":{"operation":"allow"},"argtaints":[[],[]],"codtaints":["@study"],"rettaints":["CLINIC"]}]}
#pragma cle def COUNT {"level":"study","cdf":[{"remotelevel":"clinic","direction":"bidirectional", \
  "guarddirective":{"operation":"allow"},"argtaints":[],"codtaints":["@study"],"rettaints":["CLINIC"]}]}

struct patient {
  long id;
  unsigned char age;
  short marks[2];
};

int reports;

#pragma cle REPORT
int report(struct patient p, unsigned char notes[3]) {
  reports++;
  notes[0] = p.age;
  notes[1] += 1;
  return p.id + p.marks[1] + p.age;
}

#pragma cle COUNT
int count(void) {
  return reports;
}

int main(void) {
  struct patient p = {123456789012, 63, {5, -6}};
  unsigned char notes[3] = {'A', 'B', 'C'};
  printf("%d\n", report(p, notes));
  printf("%d %d %d\n", notes[0], notes[1], notes[2]);
  printf("%d\n", count());
  return 0;
}
