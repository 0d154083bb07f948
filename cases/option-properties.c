int f(int x);
int g(int x){
  assert(x);
  return f(x);}
int main(void){
  for(int i=0;i<3;
      (assert)(i<3),i++)
    do{
      while(nondet_int())assert(1);
    }while(sizeof((assert(0),1))==0);
  return g(1);
}
/* the order of the file, and not that in which functions are declared */
int f(int x){
  while(x)assert(x--);
  return 0;
}
