/* Two words change places. */
main() {
    auto x, y;

    x = 1972;
    y = 16;
    swap(&x, &y);
    printn(x, 10);
    putchar(' ');
    printn(y, 10);
    putchar('*n');
}

swap(p, q) {
    auto old;

    old = *p;
    *p = *q;
    *q = old;
}
