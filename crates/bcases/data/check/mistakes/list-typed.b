main() {
    int v[3] = {1, 2 + f(3, 4), 5};
    printn(v[0] + v[1] + v[2], 10);
}
f(a, b) return(a + b);
