main() {
    printn(08, 10);
}
