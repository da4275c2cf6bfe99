main() {
    for i in range(10) {
        printn(i, 10);
    }
}
