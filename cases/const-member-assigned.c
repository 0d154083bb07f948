int main(void){struct{const int a;int b;}s;s.b=1;
s.a=1;return 0;}