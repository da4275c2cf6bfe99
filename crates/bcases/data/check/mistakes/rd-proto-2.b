f(a, b);
main() f(1, 2);
f(a, b) {
    return(a + b);
}
