/* Wrong: a division drops the fraction, and doesn't round down. */
/* Told: -7 / 2: your answer is -4 and not -3 */
answers() {
    say(1, -32768);
    say(2, -25536);
    say(3, 8);
    say(4, -4);
    say(5, 14);
}
