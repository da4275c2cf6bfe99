main() {
    auto x;
    x = 5;
    x=-1;
    printn(x, 10);
}
