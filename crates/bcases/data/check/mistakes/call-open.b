main() {
    auto x;
    x = 5;
    printn x, 10);
}
