main() {
    auto i;
    i = 3;
    if(!i == 3)
        putchar('a');
}
