/* A row of products. */
main() {
    auto n, i;

    n = getchar() - '0';
    i = 1;
    while(i <= 5) {
        printn(n * i, 10);
        putchar(' ');
        i++;
    }
    putchar('*n');
}
