#include <limits.h>
#define NEXT x + 1
int main(void) {
  int x = INT_MAX;
  x = NEXT;
  return 0;
}
