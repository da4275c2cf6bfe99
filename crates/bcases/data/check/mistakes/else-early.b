main() {
    auto x;
    x = 5;
    if(x > 3);
        putchar('a');
    else
        putchar('b');
}
