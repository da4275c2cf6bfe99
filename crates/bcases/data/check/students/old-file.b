main() {
    auto line 40, n;
    n = read(0, line, 80);
    write(1, line, n);
    close(0);
}
