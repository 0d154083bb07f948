int main(void){unsigned n=0;while(1){n++;assert(n<100);}}
