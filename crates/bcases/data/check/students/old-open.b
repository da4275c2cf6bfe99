main() {
    auto f;
    f = open("data", 0);
    printn(f, 10);
}
