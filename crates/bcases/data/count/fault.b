main() {
    g(;
}
