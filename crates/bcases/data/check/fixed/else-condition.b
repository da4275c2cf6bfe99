main() {
    auto c;
    c = getchar();
    if(c == 'a')
        putchar('b');
    else(c == 'c')
        putchar('d');
}
