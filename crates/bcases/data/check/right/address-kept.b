main() {
    auto x, y, z;
    x = &y;
    fill(x);
    printn(y + z, 10);
}
fill(p) {
    *p = 1;
}
