unsigned sum(unsigned a,unsigned b){return a+b;}
unsigned product(unsigned a,unsigned b){return a+b;}
int more(int x){return x+1>x;}
int wraps(unsigned x){return x+1>x;}
unsigned quotient(unsigned a,unsigned b){return a/b;}
unsigned count(unsigned n){unsigned s=0;while(n!=0){s=s+n;n=n-1;}return s;}
void waits(unsigned n){while(n!=0){}}
void ever(void){for(;;){}}
unsigned four(unsigned a){unsigned i;for(i=0;i<4;i++){a=a+a;}return a;}
void store(unsigned *p,unsigned v){*p=v;}
void twice(unsigned *p,unsigned v){*p=v;}
unsigned saved(unsigned a,unsigned b){return a+b;}
unsigned char narrow(unsigned char a){return a+1;}
int greater(int a,int b){if(a<b){return b;}return a;}
