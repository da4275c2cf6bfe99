main() {
    auto w;

    w = 'abcd';
    putchar(w);
}
