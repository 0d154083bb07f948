/* Refused with 11, Typing, rule 4: the length of an array isn't from 1 to 2,147,483,647, a type has more bytes than
   that, or `[ ]` stands where nothing says the length. */
int main(void) {
  int none[0];
  return 0;
}
