main() {
    auto c;

    c = getchar();
    f(c == ' ') putchar('a');
}
