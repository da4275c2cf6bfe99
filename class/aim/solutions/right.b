/* What comes? */
answers() {
    say(1, 20);
    say(2, 25);
    say(3, 33);
    say(4, 2);
    say(5, 35);
}
