unsigned f(unsigned a){unsigned i;for(i=0;i<4;i++){a=a+a;}return a;}
