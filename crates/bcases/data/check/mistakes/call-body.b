main() {
    auto i;
    i = 0;
    whlie(i < 3) {
        i++;
    }
}
