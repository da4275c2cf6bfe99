main() {
    auto v 3, x;
    for x in v {
        printn(x, 10);
    }
}
