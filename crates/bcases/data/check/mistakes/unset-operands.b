main() {
    ends(2);
    begins(2);
}
ends(a) {
    auto t, u, v, w, x, y, z;
    printn(a[0] & t, 10);
    printn(main() & u, 10);
    printn(a++ & v, 10);
    printn(a-- & w, 10);
    printn(1 & x, 10);
    printn('a' & y, 10);
    printn("a" & z, 10);
}
begins(a) {
    auto w, x, y, z;
    printn(-w, 10);
    printn(!x, 10);
    y =+ a;
    printn(y + a * z, 10);
    printn(w + x + y + z, 10);
}
