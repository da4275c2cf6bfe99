main() {
    auto c;
    c = getchar();
    while(c != -1) {
        putchar(c);
        c = getchar();
    }
}
