#endif
#include <math.h>
