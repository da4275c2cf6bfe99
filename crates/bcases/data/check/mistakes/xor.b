main() {
    printn(5 ^ 3, 10);
}
