n 5;
main() {
    auto n 2;
    n[0] = 1;
    printn(n[0], 10);
}
