#define ZERO none

int main(void) {

  return ZERO;
}
