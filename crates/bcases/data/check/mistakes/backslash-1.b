main() {
    putchar('\n');
}
