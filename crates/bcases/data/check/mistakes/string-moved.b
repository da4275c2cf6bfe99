say(s) putchar(char(s, 0));
main() {
    auto total, v 3;
    total = 55;
    v[0] = 7;
    say("Total: " + total);
    say("Total: " + v[0]);
    putchar(char("0123456789" + total % 5, 0));
    putchar(char("0123456789" + total, 0));
}
