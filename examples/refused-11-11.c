/* Refused with 11, Typing, rule 11: there is no such member, or the left side has no members. */
struct point { int x; int y; };

int main(void) {
  struct point here = {1, 2};
  return here.z;
}
