main() {
    auto i;
    i = 1;
    while((i < 3) {
        i++;
    }
}
