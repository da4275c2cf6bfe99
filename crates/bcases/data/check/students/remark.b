# writes a star
main() {
    putchar('**');
}
