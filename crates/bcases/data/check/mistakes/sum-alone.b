main() {
    auto i;
    i = 0;
    while(i < 5) {
        printn(i, 10);
        i + 1;
    }
}
