/* say(c) writes c */
say(c) {
    c;
    putchar(c);
}
