#pragma cle def P {"level":"purple"}
int main(void) {
  putchar(65);
  return 2147483647
    + 1;
}
