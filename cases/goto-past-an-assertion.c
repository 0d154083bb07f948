int main(void){int x=nondet_int();if(x==3)goto out;
assert(x!=3);out:return 0;}