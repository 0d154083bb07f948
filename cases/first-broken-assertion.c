int main(void){
int a=nondet_int();
int b=nondet_int();
__CPROVER_assume(a==5&&b==6);
assert(a<b);

assert(b<a);
assert(0);return 0;}