/* A row of products, counted in the condition. */
main() {
    auto n, i;

    n = getchar() - '0';
    i = 0;
    while(i++ < 5) {
        printn(i * n, 10);
        putchar(' ');
    }
    putchar('*n');
}
