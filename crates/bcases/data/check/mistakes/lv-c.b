main() {
    const *p;
    p = 1;
}
