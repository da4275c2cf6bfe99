main() {
    auto i;
    i = 2;
    while(i >= 0)
        printn(6 / i--, 10);
    putchar('n');
}
