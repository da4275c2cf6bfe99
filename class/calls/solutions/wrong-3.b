/* Wrong: the second f begins when the first has returned, so they aren't active at the same time. */
/* Told: active calls of f, at most: your answer is 9 and not 4 */
answers() {
    say(1, 5);
    say(2, 9);
    say(3, 2112);
    say(4, 9);
    say(5, 3);
}
