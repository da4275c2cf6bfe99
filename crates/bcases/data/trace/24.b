main() {
    putchar(32769);
    putchar(32639);
    putchar(65406);
}
