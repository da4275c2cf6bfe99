main() {
    auto n, flags;
    n = 0;
    flags = 5;
    while(n < 10) {
        if(!n % 2)
            printn(n, 10);
        n++;
    }
    if(!flags & 4)
        putchar('n');
}
