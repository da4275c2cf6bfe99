fill(v) {
    v[0] = 1;
}
main() {
    auto a 3;
    a[0] = 0;
    fill(&a);
    printn(a[0], 10);
}
