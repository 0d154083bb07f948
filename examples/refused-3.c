/* Refused with 3, BadConstant: a number that is no integer constant, as there is no floating point; a wrong escape; a
   character constant with none or several characters. */
int main(void) {
  int half = 1.5;
  return half;
}
