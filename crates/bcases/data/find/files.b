main() {
    printn(1, 10);
}
