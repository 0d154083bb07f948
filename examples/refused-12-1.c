/* Refused with 12, Outside, rule 1: no `main` is defined (told with line 1), or it isn't `int` without parameters (told
   with the line of its name). */
int main(int count) { return count; }
