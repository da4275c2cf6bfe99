main() {
    auto n;
    n = getchar();
    if(n > 'a')
        putchar('1');
    else if(n > '0'):
        putchar('2');
}
