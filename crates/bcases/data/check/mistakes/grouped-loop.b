main() {
    auto a;
    a = 0;
    while(a + (a)) ;
    putchar('n');
}
