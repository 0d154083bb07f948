/* The sum of the numbers up to n: the loop stops one too early. */
int main(void) {
  unsigned char n = nondet_uchar();
  __CPROVER_assume(n == 6);
  int sum = 0;
  for (int i = 0; i < n; i++)
    sum += i;
  assert(sum == n * (n + 1) / 2);
  return 0;
}
