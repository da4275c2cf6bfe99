main() {
    auto c;
    while((c = getchar()) != -1) putchar(c);
    if(c < 0) other(3);
}
other(c) {
    if(c < 0) putchar('l');
    if(c == -1) putchar('m');
    printn(c);
}
