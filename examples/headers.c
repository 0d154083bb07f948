/* The headers of a C file, and its own constants. The sum of three numbers stops at the greatest one. */
#include <assert.h>
#include <limits.h>
#include <stdbool.h>

#define STEPS 3

int sum(int a, int b) {
  bool fits = a <= INT_MAX - b;
  return fits ? a + b : INT_MAX;
}

int main(void) {
  int total = 0;
  for (int i = 0; i < STEPS; i++) {
    int next = nondet_int();
    __CPROVER_assume(next >= 0);
    total = sum(total, next);
    assert(total >= next);
  }
  return 0;
}
