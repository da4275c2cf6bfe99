word() {
    auto s 5;
    lchar(s, 0, 'a');
    lchar(s, 1, '*e');
    return(s);
}
main() {
    putchar(char(word(), 0));
}
