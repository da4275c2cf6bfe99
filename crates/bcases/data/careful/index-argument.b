main() {
    auto v 2;
    v[0] = v[1] = v[2] = 4;
    printn(sum(v, 4), 10);
}
sum(v, n) {
    auto i, s;
    i = s = 0;
    while(i < n) s =+ v[i++];
    return(s);
}
