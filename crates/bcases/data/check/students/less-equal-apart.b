main() {
    auto n;
    n = 3;
    if(n < = 4)
        putchar('y');
}
