main() {
    auto c;
    c = getchar();
    if(c >= 'a' && c <= 'z' || c == '_')
        putchar(c);
}
