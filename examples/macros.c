/* What breaks in a macro is told on the line of its name. The part of the file that would rule it out is skipped. */
#include <limits.h>
#define NEXT count + 1

int main(void) {
  int count = nondet_int();
#ifdef CAREFUL
  if (count == INT_MAX)
    return 0;
#endif
  count = NEXT;
  return 0;
}
