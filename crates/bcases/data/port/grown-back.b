main() {
    auto a, b, c, i;
    a = i = 0;
    b = 1;
    while(i++ < 30) {
        c = a + b;
        a = b;
        b = c;
    }
    printn(a, 10);
}
