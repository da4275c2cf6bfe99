f(a) g();
main() f(1);
g() ;
f(a, b) {
    return(a + b);
}
