/* Refused with 11, Typing, rule 9: what is assigned or stepped is no place, or is const or has a const member. */
int main(void) {
  const int limit = 8;
  limit = 9;
  return limit;
}
