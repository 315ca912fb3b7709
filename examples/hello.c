#pragma cle def P {"level":"purple"}
int main(void) { putchar(72); return 0; }
