/* Minutes, seconds and weeks, with words for what is reckoned. */
main() {
    auto day, hour;

    hour = 60;
    day = 24 * hour;
    printn(day * 7, 10);
    putchar('*n');
    printn(hour * 60, 10);
    putchar('*n');
    printn((1000 - 1000 % 7) / 7, 10);
    putchar('*n');
}
