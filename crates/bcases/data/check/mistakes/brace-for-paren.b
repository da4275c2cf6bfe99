main() {
    auto x;
    x = getchar();
    putchar(x};
}
