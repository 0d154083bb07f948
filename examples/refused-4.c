/* Refused with 4, Foreign: a word of C11 that the checker has no part of (float, double, _Complex, _Imaginary,
   _Generic, _Alignas, _Alignof, _Atomic, _Thread_local, _Static_assert), or a literal behind L, u, U or u8. */
int main(void) {
  double rate = 3;
  return rate > 2;
}
