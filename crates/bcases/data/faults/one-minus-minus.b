main() {
    1--;
}
