int d;int main(void){
if(d<2){d++;
int x=main();assert(x!=3);}else return 3;}