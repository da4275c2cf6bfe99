/* Wrong: the words are taken from the top, and not from the bottom. */
/* Told: on top after place 4: your answer is 6 and not 24 */
answers() {
    say(1, 3);
    say(2, 6);
    say(3, 2);
    say(4, 12);
    say(5, 200);
}
