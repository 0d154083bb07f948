/* A door with a lock. In each of five steps the key is turned or the door is pushed, as the environment likes: it opens
   only where the key was turned before. */
enum state { LOCKED, UNLOCKED, OPEN };

int step(int state, int pushed) {
  switch (state) {
  case LOCKED:
    return pushed ? LOCKED : UNLOCKED;
  case UNLOCKED:
    return pushed ? OPEN : LOCKED;
  default:
    return LOCKED;
  }
}

int main(void) {
  int state = LOCKED;
  int turned = 0;
  for (int i = 0; i < 5; i++) {
    int pushed = nondet_bool();
    if (!pushed)
      turned = 1;
    state = step(state, pushed);
    assert(state != OPEN || turned);
  }
  return 0;
}
