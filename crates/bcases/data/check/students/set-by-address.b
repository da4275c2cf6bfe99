main() {
    auto i, n;
    i = 0;
    while(i < 3) {
        read(&n);
        i = i + n;
    }
}
read(p)
    *p = 1;
