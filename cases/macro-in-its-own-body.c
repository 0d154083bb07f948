#define x x + 1
int main(void) {
  int x = 1;
  return 0;
}
