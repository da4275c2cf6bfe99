main() {
    auto int i, register j;
    auto char *s, v[3];
    i = j = 2;
    printn(i + j, 10);
    s = v;
}
