main() {
    printf("%5d %s%%%c 100%", 1, "a", 'b');
    printf("%ld%.2f\n", 1, 2);
    return 1;
}
