main() {
    auto c;

    c == getchar();
    putchar(c);
}
