mian() {
    putchar('a');
}
