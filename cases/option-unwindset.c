int f(void){int s=0;for(int i=0;i<20;i++)s++;return s;}
int main(void){
  for(int i=0;i<7;i++);
  for(int i=0;i<100;i++);
  assert(f()==20);
  return 0;
}
