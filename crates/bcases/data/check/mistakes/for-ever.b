main() {
    for(;;)
        putchar('a');
}
