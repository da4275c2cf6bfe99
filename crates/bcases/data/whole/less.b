less(n) {
    auto one;
    one = 1;
    return(n - one);
}
