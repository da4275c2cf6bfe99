main() {
    auto n;

    n = 3;
    printf("%d goals*n, n);
}

printf(form, a) {
    putchar(char(form, a));
}
