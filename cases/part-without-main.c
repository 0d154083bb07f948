#ifdef A
int main(void){return 0;}
#endif
