unsigned f(unsigned a,unsigned b){if(a)goto end;b=0;end:return a+b;}
