main() {
    auto i;

    for(i = 1; i <= 5; i++) {
        printn(i, 10);
    }
}
