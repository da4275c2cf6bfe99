n 12;
main() f(1, 2, 3, 4, 5, 6, 7);
f(a, b, c, d, e, g, h) {
    extrn n;
    n(a);
}
