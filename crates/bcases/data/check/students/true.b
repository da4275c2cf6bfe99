main() {
    while(true)
        putchar(getchar());
}
