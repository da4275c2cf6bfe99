twice(n) {
    printn(n * 2, 10)
    putchar('*n');
}
