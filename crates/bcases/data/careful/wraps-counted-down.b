main() {
    auto i;
    i = -32767 - 1;
    printn(--i, 10);
}
