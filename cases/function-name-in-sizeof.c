int f(void){return 1;}
int main(void){
return sizeof(f,1);}
