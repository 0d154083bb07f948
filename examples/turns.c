/* Which turns the schedule counts: the draw, the write of `level`, its read, and the break. */
int level;

int main(void) {
  level = nondet_int();
  assert(level != 7);
  return 0;
}
