/* What comes? Each address is one on from the word before. */
answers() {
    say(1, 6 + 1);
    say(2, 7 + 3);
    say(3, 10 + 2);
    say(4, 10 + 4);
    say(5, 7 + 7);
}
