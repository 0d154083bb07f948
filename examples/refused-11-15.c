/* Refused with 11, Typing, rule 15: a label stands twice in a function, or not at all. */
int main(void) {
  goto end;
  return 0;
}
