/* Comparisons of truths, and of parts. */
first(a, b) {
    if((a < 0) == (b < 0))
        return(1);
    return(a < 3 & b < 5);
}
second(a, b, c) {
    if(a < b & b < c)
        return(1);
    if(f(a < b) < 2)
        return(2);
    return((a > b) + (b > c));
}
third(v, i) {
    if(v[i < 3] < 5)
        return(1);
    if((v[0] == v[1]) != (v[2] == v[3]))
        return(2);
    return(i < (v[1] < v[2] ? 1 : 2));
}
f(n) return(n);
main() {
    auto v 3;
    v[0] = v[1] = v[2] = v[3] = 0;
    first(1, 2); second(1, 2, 3); third(v, 1);
}
