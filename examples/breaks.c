int main(void) {
  int x = nondet_int();
  assert(x != 7);
  return 0;
}
