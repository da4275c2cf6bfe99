main() {
    printm(1, 10);
    printm(2, 10);
}
