main() {
    auto h, i;
    h = i = 1;
    while(i++ < 9) {
        h = h << 3;
        h = h | 1;
    }
    printn(h, 10);
}
