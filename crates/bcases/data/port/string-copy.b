main() {
    auto v[3];
    copy(v, "abc");
}
copy(a, b) {
    while(*a++ = *b++) ;
}
