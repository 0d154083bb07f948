/* Refused with 11, Typing, rule 8: a value that is assigned, initializes an integer, is returned or is an argument, and
   is none or of another type. */
struct point { int x; int y; };

int main(void) {
  struct point here = {1, 2};
  here = 3;
  return here.x;
}
