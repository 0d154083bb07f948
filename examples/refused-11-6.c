/* Refused with 11, Typing, rule 6: a function gives an array or a function, `void` is one of several parameters, or a
   parameter of a definition has no name. */
int twice(int) { return 2; }

int main(void) { return twice(1); }
