main() {
    printn("hello", 10);
}
