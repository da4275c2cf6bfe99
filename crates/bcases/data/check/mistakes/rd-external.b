m 1;
n 1;
v[3] 1, n;
f(a) {
    return(a);
}
n 2;
main() ;
