main() {
    1 = 2;
}
