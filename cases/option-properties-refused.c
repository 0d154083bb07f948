int main(void){
a:;goto a;}
