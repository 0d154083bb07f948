/* Refused with 11, Typing, rule 13: a length, the value of a `case` or of an enumerator, or the initializer of an
   object that lives as long as the program is no constant expression. */
int main(void) {
  int length = 3;
  int table[length];
  return 0;
}
