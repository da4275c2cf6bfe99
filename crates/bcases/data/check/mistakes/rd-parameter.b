main() f(1, 2);
f(a, b,
    a) {
    return(a + b);
}
