/* Passes the limit of object-bytes: one variable has more than 65,536 bytes. */
int main(void) {
  char buffer[70000];
  return 0;
}
