main() {
    putchar('a'); \
}
