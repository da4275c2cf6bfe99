main() {
    puts("eight");
    printf("%d %o", 8, -8);
}
