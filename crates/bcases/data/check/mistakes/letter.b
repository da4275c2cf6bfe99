main() {
    auto ä;
}
