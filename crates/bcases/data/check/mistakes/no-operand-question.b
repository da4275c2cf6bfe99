main() {
    auto n, x;
    n = getchar();
    x = n ? : 2;
    printn(x, 10);
}
