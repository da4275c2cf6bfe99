main() {
    auto n;
    n = 5;
    if(n == 3 or n == 5)
        putchar('y');
}
