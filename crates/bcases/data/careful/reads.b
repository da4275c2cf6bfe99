main() {
    auto c, v 1, n;
    n = 0;
    while((c = getchar()) != '*n') {
        putchar(c);
        v[n++] = c;
    }
}
