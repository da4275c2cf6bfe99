main() {
    auto a, b;
    extrn c,
        a;
    a = b = c;
}
c 5;
