main() {
    putchar("hello");
}
