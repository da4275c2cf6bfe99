main() {
    auto i;
    i=-1;
    printn(i, 10);
}
