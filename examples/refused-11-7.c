/* Refused with 11, Typing, rule 7: an operand that doesn't fit its operator, as an array, a struct or nothing where a
   number is asked for; a string or an array outside of `sizeof` and initializers; a parameter that is an array. */
int main(void) {
  int pair[2] = {1, 2};
  return pair + 1;
}
