main() {
    auto c;
    c = getchar("A letter: ");
    putchar(c, '*n');
}
