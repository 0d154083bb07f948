int f(void);int main(void){
switch(1){{case 1:;}}
f;}