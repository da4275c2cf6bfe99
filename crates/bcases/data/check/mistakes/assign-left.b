main() {
    auto a;
    a = 1;
    if(a == 1 | a = 2)
        putchar('a');
}
