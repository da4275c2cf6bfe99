main() {
    auto marks 4;
    marks[0] = 1;
    printn(first(marks[5], 5), 10);
}
first(v, n) return(v[0] + n);
