n 5;
main() {
    auto n 2;
    n[0] = 4;
    printn(n[0], 10);
}
