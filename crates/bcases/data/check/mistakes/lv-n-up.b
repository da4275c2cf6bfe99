main() {
    auto x, s;
    x = 1;
    s = "ab";
    n++;
}
n 5;
