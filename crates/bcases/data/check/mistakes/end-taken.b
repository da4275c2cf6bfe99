main() {
    auto c, n;
    n = c = 0;
    while(c != '*e') {
        c = getchar();
        n++;
    }
    c = 0;
    while(c != '*e') {
        c = getchar();
        if(c != '*e')
            putchar(c);
    }
    c = 0;
    while(c != '*e') {
        c = getchar();
        putchar(c);
    }
    printn(n, 10);
}
