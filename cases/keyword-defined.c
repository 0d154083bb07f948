#define int long
int main(void){return 0;}
