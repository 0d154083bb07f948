/* Refused with 11, Typing, rule 17: the test of an `if` or a loop is no number, or a `switch` is on no integer. */
struct point { int x; int y; };

int main(void) {
  struct point here = {1, 2};
  if (here)
    return 1;
  return 0;
}
