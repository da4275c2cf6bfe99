/* Wrong: what follows a call is done, too, after it has returned. */
/* Told: calls of f for f(4): your answer is 4 and not 9 */
answers() {
    say(1, 5);
    say(2, 4);
    say(3, 21);
    say(4, 4);
    say(5, 3);
}
