f(a, b, c, d, e, g, h, i, j) {
    printn(a, 10); printn(b, 10); printn(c, 10); printn(d, 10); printn(e, 10);
    printn(g, 10); printn(h, 10); printn(i, 10); printn(j, 10);
    putchar('*n');
}

main() {
    f(1, 2, 3, 4, 5, 6, 7, 8, 9);
    f(1, 2, 3, 4, 5, 6, 7, 8, 9, 10, 11, 12);
    f(1, 2, 3, 4, 5);
    f();
}
