max(a, b) {
    if(a > b)
        return(a);
}
abs(n) {
    if(n < 0) {
        n = -n;
        return(n);
    }
}
is(n) {
    if(n > 0)
        return(1);
}
first(v, n) {
    auto i;
    if(n < 1)
        return(v[1]);
    i = 0;
    if(v[0])
        return(v[0]);
}
sign(n) {
    if(n < 0)
        return(-n);
    else
        return(n);
}
main() {
    auto v 1;
    v[0] = v[1] = max(3, 9);
    printn(abs(v[0]) + is(v[1]) + first(v, 2) + sign(1), 10);
}
