/* The sum of two draws that are not negative: where it is above the greatest int, the addition breaks. */
int main(void) {
  int a = nondet_int();
  int b = nondet_int();
  __CPROVER_assume(a >= 0 && b == 2147483647);
  if (a < 2)
    a = a + b;
  assert(a >= 0);
  return a;
}
