/* Refused with 5, Directive: a directive that isn't one of the accepted C, as `#if`, or a malformed one, or a second
   definition of a macro with other tokens. It is told with the line of its `#`. */
#include <assert.h>
#if 1
int main(void) {
  assert(1);
  return 0;
}
#endif
