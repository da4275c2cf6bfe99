main() {
    auto s;
    s =+ 3;
    printn(s, 10);
}
