main() {
    auto default;
    on:
    putchar('a');
    while((default = getchar()) != '*e')
        goto on;
}
