/* Refused with 12, Outside, rule 3: a function's name stands elsewhere than before the `(` of a call. */
int start(void) { return 1; }

int main(void) {
  start;
  return 0;
}
