int count;
int main(void) {
  for (int i = 0; i < 4; i++)
    for (int j = 0; j < 5; j++)
      for (int k = 0; k < 5; k++) count = count + i;
  assert(count == 150);
  return 0;
}
