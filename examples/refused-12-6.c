/* Refused with 12, Outside, rule 6: the label of a `goto` doesn't stand later, in the list of statements of a block
   around it: no jump goes back or into a block. A loop says the same. */
int main(void) {
  int x = nondet_int();
again:
  x = x / 2;
  if (x > 1)
    goto again;
  return x;
}
