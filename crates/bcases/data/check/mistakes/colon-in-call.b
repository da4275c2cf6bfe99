main() {
    auto a;
    a = getchar();
    printn(a ? 1, 10);
}
