/* Wrong: f(1) and f(0) both give 1, and f(2) the sum of both. */
/* Told: f(4): your answer is 3 and not 5 */
answers() {
    say(1, 3);
    say(2, 9);
    say(3, 2112);
    say(4, 4);
    say(5, 3);
}
