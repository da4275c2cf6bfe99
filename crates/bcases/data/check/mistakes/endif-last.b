main() {
    auto n;
    n = getchar();
    if(n == 'y')
        putchar('y');
    endif
}
