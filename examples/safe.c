int main(void) {
  int x = nondet_int();
  int y = x;
  assert(x == y);
  return 0;
}
