main() {
    printn(2 ** 8, 10);
}
