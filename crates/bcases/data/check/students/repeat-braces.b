main() {
    auto i;
    i = 0;
    repeat {
        putchar('a');
        i++;
    } until(i == 3);
}
