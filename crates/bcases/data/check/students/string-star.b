main() {
    auto s;
    s = "abc";
    while(*s) {
        putchar(*s);
        s++;
    }
}
