int main(void){struct{int a;}s;
return s.b;}