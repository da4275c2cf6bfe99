main() {
    auto ab;
    ab = 1;
    printn(ac, 10);
}
