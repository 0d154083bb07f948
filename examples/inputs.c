/* Which draw each word of the inputs line is: that of `rest`, which has no initializer, comes first, on entry to the
   block; then one for each call. 4294967295 is the -1 of `first`, and 254 the -2 of `second`. */
int main(void) {
  int first = nondet_int();
  signed char second = nondet_char();
  int rest;
  _Bool last = nondet_bool();
  __CPROVER_assume(first == -1 && second == -2 && rest == 5 && last);
  assert(first + second + rest != 2);
  return 0;
}
