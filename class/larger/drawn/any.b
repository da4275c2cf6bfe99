/* Two digits. */
main() {
    putchar('0' + draw(10));
    putchar('0' + draw(10));
    putchar('*n');
}
