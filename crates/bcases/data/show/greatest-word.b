main() {
    auto p;
    p = 65535;
    *p = 7;
}
