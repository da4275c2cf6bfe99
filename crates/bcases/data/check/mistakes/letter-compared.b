main() {
    auto c;
    c = getchar();
    if(c == y)
        putchar('1');
}
