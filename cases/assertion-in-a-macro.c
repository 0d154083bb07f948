#define CHECK assert(x != 7)
int main(void) {
  int x = nondet_int();

  CHECK;
  return 0;
}
