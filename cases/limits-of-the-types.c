#include <limits.h>
int main(void) {
  assert(CHAR_BIT == 8);
  assert(CHAR_MIN == SCHAR_MIN && CHAR_MAX == SCHAR_MAX && UCHAR_MAX == 255);
  assert(SHRT_MIN == -SHRT_MAX - 1 && USHRT_MAX == 2 * SHRT_MAX + 1);
  assert(INT_MIN == -INT_MAX - 1 && UINT_MAX == 2u * INT_MAX + 1);
  assert(LONG_MIN == -LONG_MAX - 1 && ULONG_MAX == 2ul * LONG_MAX + 1);
  assert(LLONG_MIN == LONG_MIN && LLONG_MAX == LONG_MAX && ULLONG_MAX == ULONG_MAX);
  return 0;
}
