say(n, x) printn(n + x, 10);

main() {
    say(4, 8 * (5 - 2 / 10 == 3 ? 10 : 12);
}
