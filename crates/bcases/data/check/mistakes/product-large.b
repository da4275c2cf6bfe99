main() {
    printn(80 * 1000, 10);
    printn(200 * 200, 10);
    printn(20000 + 50000, 10);
}
