main() {
    auto a;
    a = 5;
    if((a & 1) == 1 & !(a == 4) & !a != !5)
        putchar('a');
}
