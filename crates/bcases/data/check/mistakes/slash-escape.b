main() {
    putchar('/n');
    putchar('/');
    putchar('n/');
}
