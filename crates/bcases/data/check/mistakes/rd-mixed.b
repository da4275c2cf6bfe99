f 1;
main() ;
f(b) {
    return(b);
}
