marks[5] 12, 17, 9, 20, 14, 11;
largest(v, n) {
    auto i, best;
    best = v[0];
    i = 1;
    while(i <= n) {
        if(v[i] > best)
            best = v[i];
        i++;
    }
    return(best);
}
first(v, n) {
    auto i;
    i = 0;
    while(i < n) {
        if(v[i])
            return(i);
        i++;
    }
    return(n);
}
main() {
    extrn marks;
    printn(largest(marks, 6), 10);
    printn(largest(marks, 5), 10);
    printn(first(marks, 6), 10);
}
