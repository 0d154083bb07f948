/* Refused with 12, Outside, rule 10: a function is declared with `...`. */
int record(int kind, ...);

int main(void) { return 0; }
