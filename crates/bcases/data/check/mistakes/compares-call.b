main() {
    auto i;
    i = 3;
    i == getchar();
    printn(i, 10);
}
