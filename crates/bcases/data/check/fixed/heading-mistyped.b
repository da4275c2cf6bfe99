main() {
    auto i;

    i = 0;
    whele(i < 3)
        putchar('a' + i++);
}
