main() {
    auto n;
    n = getchar();
    if(n == 'a')
        putchar('1');
    else(n == 'b') {
        putchar('2');
    }
}
