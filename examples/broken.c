#pragma cle def PURPLE {"level":"purple"}
#pragma cle def ORANGE {"level":"orange"}
#pragma cle def RESP {"level":"purple"}
#pragma cle def GETA {"level":"orange","cdf":[{"remotelevel":"purple","direction":"bidirectional","guarddirective":{"operation":"allow"},"argtaints":[],"codtaints":["ORANGE"],"rettaints":["RESP"]}]}
#pragma cle ORANGE
int a;
#pragma cle GETA
int f(void) { a = a + 2147483647; return a; }
int main(void) { putchar(65); return f() - f(); }
