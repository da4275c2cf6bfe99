main() {
    ++1;
}
