/* Refused with 11, Typing, rule 14: `case`, `default`, `break` or `continue` outside of its statement, or a value or
   `default` twice in one switch. */
int main(void) {
  int x = 0;
  if (x == 0)
    break;
  return x;
}
