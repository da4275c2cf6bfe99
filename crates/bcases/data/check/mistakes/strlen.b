main() {
    auto s;
    s = "abc";
    printn(strlen(s), 10);
}
