/* Refused with 12, Outside, rule 2: a function that is called has no body. One whose name begins with `nondet_`,
   without parameters, would be a draw of an input. */
int sensor(void);

int main(void) {
  int level = sensor();
  return level > 10;
}
