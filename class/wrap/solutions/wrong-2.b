/* Wrong: the fraction is dropped after each division, and not at the end. */
/* Told: 10 / 4 * 4: your answer is 10 and not 8 */
answers() {
    say(1, -32768);
    say(2, -25536);
    say(3, 10);
    say(4, -3);
    say(5, 14);
}
