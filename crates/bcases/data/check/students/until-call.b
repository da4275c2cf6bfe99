main() {
    auto i;
    i = 0;
    until(i == 3) { putchar('a'); i++; }
}
