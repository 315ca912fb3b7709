#pragma cle def P {"level":"purple"}
int main(void) { return x; }
