main() {
    x = 1;
}
f() {
    y = 2;
}
