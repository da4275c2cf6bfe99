main() {
    auto i;
    i = 1;
    while(i > 0) {
        printn(i, 10);
        putchar(' ');
        i = i * 10;
    }
}
