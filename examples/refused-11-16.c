/* Refused with 11, Typing, rule 16: `return` without a value in a function that gives one, or with one in a function
   that gives none. */
int main(void) {
  return;
}
