main() {
    auto i;
    i = 0;
    goto in;
    while(i < 3) {
in:
        putchar('a' + i);
        i++;
    }
}
