main() {
    auto n;
    n = 5;
    if(n > 3):
        putchar('y');
}
