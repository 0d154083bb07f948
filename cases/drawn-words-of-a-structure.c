int main(void){struct{int a,b,c;}s;
assert(!(s.a==1&&s.b==2&&s.c==3));return 0;}