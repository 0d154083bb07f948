int main(void){for(int i=0;i<100;i++);return 0;}
