bump(p) {
    *p++;
}
right(p) {
    (*p)++;
}
next(p) {
    *p++;
    return(*p);
}
main() {
    auto n 3;
    n[0] = n[1] = 0;
    bump(n);
    right(n);
    printn(next(n), 10);
}
