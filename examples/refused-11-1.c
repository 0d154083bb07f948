/* Refused with 11, Typing, rule 1: a name has no declaration in scope, or a tag in a cast or `sizeof` has none. */
int main(void) {
  int count = 0;
  return coutn;
}
