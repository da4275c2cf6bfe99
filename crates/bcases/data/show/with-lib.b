/* in a LIB */
twice(c) {
    putchar(c);
    putchar(c);
}
