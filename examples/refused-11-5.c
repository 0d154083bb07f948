/* Refused with 11, Typing, rule 5: words that are no type, a type that is named twice, or two storage words. */
int main(void) {
  short long x = 1;
  return 0;
}
