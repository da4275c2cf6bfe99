/* print.b: assert of a word that isn't 0, which it gives, and then of 0. */
main() {
    putnumb(assert(7, "7 isn't 0"));
    putnumb(assert(-1, ""));
    putchar('*n');
    assert(2 < 1, "2 is less than 1");
    putstr("not written");
}
