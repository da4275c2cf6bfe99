main() {
    auto a, b;
    a = b = 1;
    if(a == 1 & b == 1 | a == 2 & b == 2)
        putchar('a');
}
