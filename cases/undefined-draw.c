int nondet_two(void);int main(void){
assert(nondet_two()!=7);return 0;}