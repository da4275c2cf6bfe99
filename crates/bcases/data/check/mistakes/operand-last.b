main() {
    auto x;
    x = ;
}
