main() {
    auto n, m;

    n = 3;
    m = 4;
    printf("%d goals, %5d*n, n, m);
    printf("%d%% of %d*n, n, m);
    putstr("so many );
}

printf(form, a, b) {
    putchar(char(form, a + b));
}

putstr(s) {
    putchar(char(s, 0));
}
