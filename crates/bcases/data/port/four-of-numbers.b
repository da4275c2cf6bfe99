main() {
    auto line[20], n;
    n = 80 / 4;
    line[n] = n >> 3;
    putchar(line[n] + '0');
}
