int main(void){
return;}