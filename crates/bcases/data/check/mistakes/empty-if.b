main() {
    auto i;
    i = 0;
    if(i == 0);
        putchar('a');
}
