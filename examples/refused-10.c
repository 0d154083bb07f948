/* Refused with 10, Syntax: a declaration or a function that the grammar has no tree of, told with the line on which it
   begins. Pointers, `&`, `->` and subscripts are not in the grammar yet. */
int zero(void) { return 0; }

int main(void) {
  int x = 0;
  int *place = &x;
  return *place;
}
