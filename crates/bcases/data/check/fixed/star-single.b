main() {
    putstr("*");
}

putstr(s) {
    putchar(char(s, 0));
}
