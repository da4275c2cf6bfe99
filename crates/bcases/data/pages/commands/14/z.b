main() {
    pritn(42, 10);
}
