main() {
    while(1)
        putchar('a');
}
