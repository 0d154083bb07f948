/* Refused with 11, Typing, rule 18: a tag of another kind, or one that is completed twice in a scope. */
struct point { int x; int y; };

int main(void) {
  union point here;
  return 0;
}
