/* Wrong: z jumps where the word is 0, and 2 == 3 is 0. */
/* Told: the place after place 9: your answer is 10 and not 12 */
answers() {
    say(1, 3);
    say(2, 24);
    say(3, 2);
    say(4, 10);
    say(5, 100);
}
