break;
n;
mian(a, b) {
    auto i, j, n 1, v 2, none;
    n[0] = 1;
    i = a && b;
    i =-1;
    if(i = 2) ;
    if(i) ;
    v[3] = 1;
    putchar("ab");
    i;
    i = '\n';
    i = i & 1 == 1;
    g(1);
    i = g();
    i = j;
}
g() ;
/* the end
