main() {
    putchar('\');
    putchar('/\');
}
