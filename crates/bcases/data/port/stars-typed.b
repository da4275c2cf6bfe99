int n;
main() {
    printf("2 *n\n");
}
printf(s) { n = s; }
