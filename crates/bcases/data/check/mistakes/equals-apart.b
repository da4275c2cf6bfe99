main() {
    auto x;
    x = 2;
    if(x = = 2)
        putchar('y');
}
