main() {
    1++;
}
