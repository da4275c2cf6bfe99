m 1;
f(a) {
    return(a);
}
main() ;
f(b) {
    return(b);
}
