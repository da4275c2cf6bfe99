/* For a machine with words of 36 bits. */
main() {
    auto a, b, t;
    a = b = 20000;
    t = a + b;
    printn(t, 10);
}
