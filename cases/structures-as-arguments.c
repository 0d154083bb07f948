struct S{int x;};int f(struct S a,struct S b,struct S c,struct S d,struct S e){return a.x+e.x;}
int main(void){struct S s;s.x=3;struct S t;t.x=4;return f(s,s,s,s,t)==7?0:1/0;}