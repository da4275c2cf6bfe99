// counts
main() {
    auto i
    i = 3;
    printn(i, 10)
    putchar('*n');
}
