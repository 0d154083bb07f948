struct S{int a[2];};
struct S f(void){struct S s={{1,2}};return s;}
int main(void){
assert(sizeof(f().a,1)==sizeof(int));
return 0;}