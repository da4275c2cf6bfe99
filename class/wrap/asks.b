/* The same, step by step: b show asks.b > asks.html */
main() {
    auto x;

    x = 32767 + 1;  /* ask */
    x = 200 * 200;  /* ask */
    x = 10 / 4 * 4;  /* ask */
    x = -7 / 2;  /* ask */
    x = 2 + 3 * 4;  /* ask */
}
