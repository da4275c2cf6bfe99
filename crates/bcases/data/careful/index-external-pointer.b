top;
v[2] 1, 2, 3;
main() {
    extrn top, v;
    top = &v[2];
    printn(*top, 10);
    top = top + 1;
    printn(*top, 10);
}
