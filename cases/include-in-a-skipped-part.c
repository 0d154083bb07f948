#ifdef A
#include <math.h>
#else
int main(void){return 0;}
#endif
