main() {
    x = 1;
}
