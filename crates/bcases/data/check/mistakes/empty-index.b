main() {
    auto v 4;
    v[0] = 1;
    printn(first(v[], 5), 10);
}
first(v, n) return(v[0] + n);
