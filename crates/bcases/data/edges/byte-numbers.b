/* The number of each byte that is read, and of the end. */
main() {
    auto i;
    i = 0;
    while(i < 258) {
        printn(getchar(), 10);
        putchar(' ');
        i++;
    }
}
