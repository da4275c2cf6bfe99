main() {
    auto i;

    for(i = 0, i < 5, i++) {
        printn(i, 10);
    }
}
