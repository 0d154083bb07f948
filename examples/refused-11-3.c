/* Refused with 11, Typing, rule 3: what has to have a complete type has none: a variable, a member, an element of an
   array, what a function gives, the operand of `sizeof`. */
int main(void) {
  struct point here;
  return 0;
}
