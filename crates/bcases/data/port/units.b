main() {
    printf(2, "error*n");
    printf("%d*n", 2);
    putchar('a', 1);
    putchar(getchar(1));
}
