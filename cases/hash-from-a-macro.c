#define H #
int x;
H define A
