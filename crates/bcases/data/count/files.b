main() {
    f(3);
}
