int main(void){
assert;return 0;}