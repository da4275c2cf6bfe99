add(a; b) {
    return(a + b);
}
main() {
    printn(add(1, 2), 10);
}
