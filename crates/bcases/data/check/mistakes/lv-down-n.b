main() {
    putchar('a');
    --n;
}
