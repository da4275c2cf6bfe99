/* What comes? As sums of what each call gives. */
answers() {
    say(1, 3 + 2);
    say(2, 1 + 5 + 3);
    say(3, 2112);
    say(4, 5 - 1);
    say(5, 3);
}
