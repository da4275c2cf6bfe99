main() {
    extrn f;
    f(1, 2);
}
f(a) {
    putchar(a);
}
