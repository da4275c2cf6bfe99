main() {
    auto i
    i = 3;
    if(i = 4)
        putchar('y');
}
