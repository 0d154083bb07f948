int nondet_int(void);
int seen, sum;
int main(void) {
  int x = nondet_int();
  for (int i = 0; i < 6; i++) {
    if (x == i) seen = i;
    if (seen == 3) sum = sum + seen;
  }
  assert(sum != 9);
  return 0;
}
