main() {
    auto i;
    i = 32767;
    i++;
}
