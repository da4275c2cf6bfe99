main() {
    string("say "hi" now*n");
}
string(s) {
    auto i, c;
    i = 0;
    while((c = char(s, i++)) != '*e')
        putchar(c);
}
