main() {
    auto i;
    i = 3;
    if(1 < i < 3)
        putchar('a');
}
