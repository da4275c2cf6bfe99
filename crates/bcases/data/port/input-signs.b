get() return(getchar());
half(n) return(n >> 1);
main() {
    auto c;
    while((c = get()) >= 0) putchar(c);
    if(get() < 0) putchar('e');
    if(half(3) < 0) putchar('h');
    switch(get()) {
        case -1: return 0;
    }
}
