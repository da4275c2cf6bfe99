main() {
    auto x;
    x = 1;
    if(x > 1) putchar('a');
    elif(x) putchar('b');
}
