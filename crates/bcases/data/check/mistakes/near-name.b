main() {
    auto count;
    count = 1;
    printn(cout, 10);
}
