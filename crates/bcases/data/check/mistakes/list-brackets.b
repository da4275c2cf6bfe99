main() {
    auto v 2;

    v = [4, 5 + 1, f(6, 7)];
    printn(v[0] + v[1] + v[2], 10);
}
f(a, b) return(a + b);
