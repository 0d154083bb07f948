/* Refused with 7, Conditional: an `#ifdef` or `#ifndef` without its `#endif` is told with its own line, and so is an `#else`
   or `#endif` that has no partner. */
#include <assert.h>

#ifndef LEAST
#define LEAST 0

int main(void) {
  assert(LEAST <= 0);
  return 0;
}
