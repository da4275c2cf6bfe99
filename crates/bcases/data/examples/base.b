/* A number to a base from 2 to 36, with letters after 9. */
main() {
    write(1972, 2);
    write(1972, 8);
    write(1972, 16);
    write(1972, 36);
    write(-32768, 16);
}

write(n, base) {
    if(n < 0)
        putchar('-');
    else
        n = -n;
    digits(n, base);
    putchar('*n');
}

/* The digits of a number that isn't above 0, so that -32768 has some, too. */
digits(n, base) {
    auto d;

    if(d = n / base)
        digits(d, base);
    d = -(n % base);
    putchar(d < 10 ? '0' + d : 'a' + d - 10);
}
