f(x) {
    retrun(x + 1);
}
main() {
    printn(f(3), 10);
}
