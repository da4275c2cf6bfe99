main() {
    auto n;

    n = 5;
    printn(n 10);
    putchar('*n');
}
