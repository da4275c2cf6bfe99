/* What comes? */
answers() {
    say(1, 7);
    say(2, 10);
    say(3, 12);
    say(4, 14);
    say(5, 14);
}
