sum(n, a, b, c) {
    auto p, s;
    p = &a;
    s = 0;
    while(n--)
        s =+ *p++;
    return(s);
}
main() {
    printn(sum(2, 3, 4), 10);
}
