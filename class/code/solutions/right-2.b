/* What comes? As the instructions reckon. */
answers() {
    say(1, 5 - 2);
    say(2, 8 * (5 - 2));
    say(3, 2);
    say(4, 8 * (5 - 2) / 10 == 3 ? 10 : 12);
    say(5, 200);
}
