int main(void){assert(3
==
4);return 0;}