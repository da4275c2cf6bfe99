/* What comes? As sums. */
answers() {
    say(5, 10 + 20 + 5);
    say(4, 1 + 1);
    say(3, 30 + 3);
    say(2, 20 + 5);
    say(1, 20);
}
