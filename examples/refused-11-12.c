/* Refused with 11, Typing, rule 12: an initializer with more items than members, or without the braces of its own that
   each struct, union and array within another asks for. */
int main(void) {
  int grid[2][2] = {1, 2, 3, 4};
  return sizeof grid;
}
