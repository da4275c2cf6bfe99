/* Wrong: p++ goes on to the next word; it adds nothing to the word at p. */
/* Told: v[2] in line 11: your answer is 29 and not 33 */
answers() {
    say(1, 20);
    say(2, 25);
    say(3, 29);
    say(4, 1);
    say(5, 20);
}
