main() {
    auto x, s;
    x = 1;
    s = "ab";
    f(s)++;
}
f(a) {
    return(a);
}
