/* Refused with 2, Unclosed: a comment, a string or a character constant without its end. The line is that on which it
   begins. */
int main(void) {
  int sum = 1; /* one, for a start
  sum = sum + 1;
  return sum;
}
