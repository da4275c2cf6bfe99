main() {
    auto x, s;
    x = 1;
    s = "ab";
    f(s) = x;
}
f(a) {
    return(a);
}
