main() {
    int numbers10;
}
