main() {
    auto c;
    c = getchar();
    if(c >= 'A & c <= 'Z')
        putchar(c);
}
