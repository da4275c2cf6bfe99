main() {
    if(1) {
        putchar('a');
}
