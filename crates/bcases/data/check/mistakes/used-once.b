main() {
    auto c;

    c1 = getchar();
    c = 'a';
    putchar(c);
}
