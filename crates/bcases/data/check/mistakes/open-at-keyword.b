main() {
    auto n;
    n = 3;
    printn(n, 10
    if(n)
        putchar('y');
}
