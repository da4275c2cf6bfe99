main() {
    auto n;
    n = 3;
    while(n) {
        n--;
    }
    else
        putchar('a');
}
