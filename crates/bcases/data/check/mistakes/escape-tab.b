main() {
    auto s;
    s = "a*	b";
}
