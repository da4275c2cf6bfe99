main() {
    auto i;

    i = 0;
    i++;
}
