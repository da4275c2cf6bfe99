main() {
    totals(1);
    tota(1);
    totel(1);
    toatl(1);
    ttotal(1);
    otal(1);
    xotal(1);
    tatol(1);
    totalxx(1);
    tot(1);
}
total(n) {
    printn(n, 10);
}
