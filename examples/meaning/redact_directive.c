// Redaction by the annotation: requests lose the ids of all elements of an array, replies their marks.
#include <stdio.h>
#pragma cle def SCHOOL {"level":"school"}
#pragma cle def GRADE {"level":"exam","cdf":[{"remotelevel":"school","direction":"bidirectional", \
  "guarddirective":{"operation":"redact","redact":[ \
    {"on":"request","field":"people.id","with":0},{"on":"reply","field":"people.marks","with":-1}]}, \
  "argtaints":[[],[]],"codtaints":[],"rettaints":["SCHOOL"]}]}

struct person {
  long id;
  short marks[2];
};

#pragma cle GRADE
int grade(struct person people[2], int least) {
  int passed = 0;
  for (int i = 0; i < 2; i++) {
    int sum = people[i].marks[0] + people[i].marks[1];
    if (sum >= least) {
      passed++;
    }
    people[i].marks[0] = sum;
    people[i].id += 5;
  }
  return passed;
}

int main(void) {
  struct person people[2] = {{1001, {60, 30}}, {1002, {20, 25}}};
  int passed = grade(people, 50);
  printf("%d passed\n", passed);
  for (int i = 0; i < 2; i++) {
    printf("%ld %d %d\n", people[i].id, people[i].marks[0], people[i].marks[1]);
  }
  return 0;
}
