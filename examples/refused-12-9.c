/* Refused with 12, Outside, rule 9: an object that is declared `extern` is defined nowhere in the file. */
extern int level;

int main(void) { return level > 10; }
