/* Copies 256 bytes, whichever they are, and then sees the end twice. */
main() {
    auto i;
    i = 0;
    while(i < 256) {
        putchar(getchar());
        i++;
    }
    printn(getchar(), 10);
    printn(getchar(), 10);
}
