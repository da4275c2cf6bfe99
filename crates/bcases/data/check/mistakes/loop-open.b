main() {
    auto n;

    n = 5;
    while(n > 0) {
        printn(n, 10);
        n--;

    putchar('g');
    putchar('*n');
}
