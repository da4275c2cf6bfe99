main() {
    auto getchar;
    getchar = 1;
    printn(getchar, 10);
}
