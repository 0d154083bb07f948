char
main(void){return 0;}