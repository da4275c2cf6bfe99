main() {
    auto n;

    n = 3;
    printf("%d*", n);
}

printf(form, a) {
    putchar(char(form, a));
}
