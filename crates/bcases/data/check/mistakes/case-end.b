main() {
    switch getchar() {
        case end:
            putchar('e');
    }
}
