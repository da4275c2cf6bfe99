main() {
    auto c, n;
    n = 0;
    while(getchar() != '*n') {
        c = getchar();
        if(c == 'a')
            n++;
    }
    if(getchar() == 'a')
        putchar('1');
    else if(getchar() == 'b')
        putchar('2');
    printn(n, 10);
}
