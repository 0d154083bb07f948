#ifdef A
#error no
#endif
int main(void){return 0;}
