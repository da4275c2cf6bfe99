main() {
    switch getchar() {
        case 'a': putchar 'A';
    }
}
