main() {
    auto i, x;
    i = 0;
    x = 1;
    while(i++ < 20) {
        x =* 2;
        printn(x, 10);
    }
}
