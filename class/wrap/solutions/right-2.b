/* What comes? As words without a sign, which are the same words. */
answers() {
    say(5, 14);
    say(4, 65533);
    say(3, 8);
    say(2, 40000);
    say(1, 32768);
}
