int x;
#ifdef A
#ifndef B
#endif
