main() {
    printn(5);
}
