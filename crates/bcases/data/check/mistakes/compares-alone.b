main() {
    auto i;
    i = getchar();
    i == 4;
    printn(i, 10);
}
