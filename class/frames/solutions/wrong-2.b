/* Wrong: a function takes a word, too, so the data end is 10. */
/* Told: the address of x: your answer is 8 and not 10 */
answers() {
    say(1, 7);
    say(2, 8);
    say(3, 10);
    say(4, 12);
    say(5, 14);
}
