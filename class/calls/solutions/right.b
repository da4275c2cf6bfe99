/* What comes? */
answers() {
    say(1, 5);
    say(2, 9);
    say(3, 2112);
    say(4, 4);
    say(5, 3);
}
