/* Wrong: a number that is too large doesn't stay at the largest one. */
/* Told: 32767 + 1: your answer is 32767 and not -32768 */
answers() {
    say(1, 32767);
    say(2, 32767);
    say(3, 8);
    say(4, -3);
    say(5, 14);
}
