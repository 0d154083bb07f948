/* Refused with 6, Include: only the eight headers of the accepted C can be included. */
#include <assert.h>
#include <math.h>

int main(void) {
  assert(1);
  return 0;
}
