/* A row of products. */
main() {
    auto n, i;

    n = getchar() - '0';
    i = 1;
    while(i <= 5) {
        printf("%d ", n * i);
        i++;
    }
    putchar('*n');
}
