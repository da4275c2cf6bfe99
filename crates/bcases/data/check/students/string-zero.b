write(s) {
    auto i;
    i = 0;
    while(char(s, i) != 0) {
        putchar(char(s, i));
        i++;
    }
}
main() {
    write("hello");
}
