main() {
    auto n;
    n = printf("%d*n", 2);
    if(n) printf("%d*n", n);
    printf("%d %d %d %d %d %d %d %d %d*n", 1, 2, 3, 4, 5, 6, 7, 8, 9);
    printf("%d %d %d %d %d %d %d %d %d %d*n", 1, 2, 3, 4, 5, 6, 7, 8, 9, 10);
    printf("%06o %x*n", 8, 9);
}
