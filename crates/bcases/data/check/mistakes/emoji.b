main() {
    putchar('a'); 😀
}
