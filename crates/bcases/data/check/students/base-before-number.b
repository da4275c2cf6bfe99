main() {
    printn(10, 42);
}
