int x

#define A
@