f(a, b) return(a + b);
main() {
    f 1, 2);
}
