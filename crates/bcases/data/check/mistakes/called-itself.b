max(a, b) {
    return(a > b ? a : b);
}

main() {
    auto max;

    max = max(4, 9);
    printn(max, 10);
}
