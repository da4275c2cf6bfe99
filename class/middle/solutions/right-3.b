/* Gives the second largest of three numbers. Its own main is left out with the tests. */
main() {
    printf("%d %d*n", middle(3, 1, 2), middle(5, 5, 4));
}

middle(a, b, c) {
    auto old;

    if(a > b) {
        old = a;
        a = b;
        b = old;
    }
    assert(a <= b, "middle: the first two are in order");
    return(c < a ? a : c < b ? c : b);
}
