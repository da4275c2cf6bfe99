main() {
    auto n;
    n = getchar();
    if(n = 'x')
        putchar('y');
}
