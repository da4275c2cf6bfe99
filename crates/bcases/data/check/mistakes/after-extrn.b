main() {
    extrn total, rate;
    auto n;
    n = 2;
    n = n * rate;
    total = n;
    missing();
}
other() {
    extrn total;
    total = 1;
    gone(total, 2, gone());
}
