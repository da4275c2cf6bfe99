/* A number to the base 2: all of its digits but the last one, and then that one. */
main() {
    binary(1972);
    putchar('*n');
}

binary(n) {
    if(n > 1)
        binary(n / 2);
    putchar('0' + n % 2);
}
