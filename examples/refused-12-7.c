/* Refused with 12, Outside, rule 7: a `case` or `default` isn't in the list of statements of its switch's own body. */
int main(void) {
  int x = 1;
  switch (x) {
  case 0:
    x = 2;
    {
    case 1:
      x = 3;
    }
  }
  return x;
}
