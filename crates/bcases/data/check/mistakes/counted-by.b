v[2] 4, 5, 6;
sum(w, n) {
    auto i, s;
    s = 0;
    i = 0;
    while(i <= n) {
        s =+ w[i];
        i++;
    }
    return(s);
}
main() {
    extrn v;
    printn(sum(v, 3), 10);
}
