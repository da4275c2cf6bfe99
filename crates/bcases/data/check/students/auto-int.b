main() {
    auto int i;
    i = 5;
    printn(i, 10);
}
