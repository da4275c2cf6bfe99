/* What comes? */
answers() {
    say(1, 3);
    say(2, 24);
    say(3, 2);
    say(4, 12);
    say(5, 200);
}
