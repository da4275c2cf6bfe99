main() {
    auto c;
    c = getchar();
    while(c) {
        putchar(c);
        c = getchar();
    }
}
