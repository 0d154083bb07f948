/* Refused with 11, Typing, rule 10: what is called is no function, or the number of arguments is another one than that
   of the parameters. */
int sum(int a, int b) { return a + b; }

int main(void) { return sum(1); }
