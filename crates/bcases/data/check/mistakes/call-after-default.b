main() {
    switch getchar() {
        default: putchar 'A';
    }
}
