/* Passes the limit of places: loops and calls are counted as they are unrolled, here seven calls in each of seven, with
   eight activations within one another. */
int walk(int depth) {
  int leaves = 0;
  for (int i = 0; i < 7; i++)
    leaves += depth == 0 ? 1 : walk(depth - 1);
  return leaves;
}

int main(void) {
  assert(walk(2) == 343);
  return 0;
}
