v[3] 4, 2, 3, 1;
sorted(v, n) {
    auto i;
    i = 0;
    while(i < n) {
        if(v[i] > v[i + 1])
            return(0);
        i++;
    }
    return(1);
}
right(v, n) {
    auto i;
    i = 0;
    while(i < n - 1) {
        if(v[i] > v[i + 1])
            return(0);
        i++;
    }
    return(1);
}
main() {
    extrn v;
    printn(sorted(v, 4) + right(v, 4), 10);
}
