main() {
    ab(1);
    abc(1);
}
ac(n) {
    printn(n, 10);
}
abcd(n) {
    printn(n, 10);
}
