/* Refused with 11, Typing, rule 2: a scope declares a name twice, or a struct a member. */
int main(void) {
  int x = 1;
  int x = 2;
  return x;
}
