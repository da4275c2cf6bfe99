main() {
    auto x;
    x += 2;
    putstr("a" "b");
    putstr("c");
}
