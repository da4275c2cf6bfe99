main() {
    auto i;
    i = 3;
    if(i & 1 == 1)
        putchar('o');
}
