main() {
    int *p;
    p = 0;
}
