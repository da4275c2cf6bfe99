main() {
    auto n;
    n = getchar();
    if((n - 1) == ('a')) {
        putchar('1');
    else
        putchar('2');
}
