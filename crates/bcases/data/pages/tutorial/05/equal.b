main() {
    auto c;

    c = getchar();
    if(c = 'x')
        putchar('y');
}
