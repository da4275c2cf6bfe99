main() {
    auto c;

    while(0 <= (c = getchar()))
        putchar(c);
    if(0 > c)
        putchar('n');
}
