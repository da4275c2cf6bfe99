main() {
    auto n;
    putchar('a');
    n++;
    printn(n, 10);
}
