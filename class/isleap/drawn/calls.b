/* Years that are drawn, and hundreds. */
main() {
    auto i;

    i = 0;
    while(i++ < 12) {
        printn(isleap(1 + draw(3000)), 10);
        printn(isleap(4 * (1 + draw(700))), 10);
        printn(isleap(100 * (1 + draw(30))), 10);
        putchar('*n');
    }
}
