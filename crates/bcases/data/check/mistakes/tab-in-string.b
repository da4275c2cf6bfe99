main() {
    auto s;
    s = "a	b*q";
    printn(s, 10);
}
