hello() {
    putchar('h');
}
