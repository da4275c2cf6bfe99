main() {
    auto n;
    n = getchar();
    if(n =! 0)
        putchar('a');
    while(n =! '*e')
        n = getchar();
    if(n = !n)
        putchar('b');
}
