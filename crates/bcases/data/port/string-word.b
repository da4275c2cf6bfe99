length(s) {
    auto i, c;
    i = 0;
    while(c = char(s, i)) i++;
    if(c == 0) putchar('z');
    return i;
}
main() printn(length("abc"), 10);
