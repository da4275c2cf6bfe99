/* numbers.b, print.b: a line of each function of numbers. */
main() {
    texts();
    putchar('*n');
    sizes();
    putchar('*n');
    pairs();
    putchar('*n');
    rands();
    putchar('*n');
}

texts() {
    printf("%d %d %d %d ", number("12"), number("-12"), number("+12"), number("007"));
    printf("%d %d %d ", number("  *t 7"), number(" -8 9"), number("12abc"));
    printf("%d %d %d %d ", number(""), number("-"), number("abc"), number("*n5"));
    printf("%d %d %d ", number("- 5"), number("--5"), number("+-5"));
    printf("%d %d %d ", number("32767"), number("-32767"), number("-32768"));
    printf("%d %d %d", number("32768"), number("65535"), number("65536"));
}

sizes()
    printf("%d %d %d %d %d %d", abs(0), abs(5), abs(-5), abs(32767), abs(-32767), abs(1 << 15));

pairs() {
    extrn min, max;

    of(min);
    putchar('*n');
    of(max);
}

of(f) {
    printf("%d %d %d ", f(1, 2), f(2, 1), f(3, 3));
    printf("%d %d %d ", f(-1, 1), f(0, 65535), f(-2, -3));
    printf("%d %d", f(32767, 1 << 15), f(1 << 15, 0));
}

rands() {
    extrn randseed;

    printf("%d %d %d %d ", rand(), rand(), rand(), rand());
    randseed = 1;
    printf("%d %d ", rand(), rand());
    randseed = 0;
    printf("%d ", rand());
    randseed = 65535;
    printf("%d", rand());
}
