/* Refused with 1, BadByte: a byte that begins no token. Any may stand in comments, strings and character constants. */
int main(void) {
  int price = 5 @ 2;
  return price;
}
