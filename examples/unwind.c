/* The loop is right, and the bound of 8 is too small for it: its test would have to be evaluated eleven times. */
int main(void) {
  int sum = 0;
  for (int i = 1; i <= 10; i++)
    sum += i;
  assert(sum == 55);
  return 0;
}
