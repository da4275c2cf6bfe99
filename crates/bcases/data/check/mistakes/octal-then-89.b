main() {
    auto n;
    n = 0777777;
    n = 89;
}
