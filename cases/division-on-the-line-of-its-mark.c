int main(void){
int d=nondet_int();
return 7
/
d;}