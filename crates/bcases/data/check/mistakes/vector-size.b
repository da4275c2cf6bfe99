f(n) {
    auto v n, i;
    i = 0;
    return(i + n);
}
