/* Wrong: a word has one address, and not one for each of its two characters. */
/* Told: x in line 12: your answer is 4 and not 2 */
answers() {
    say(1, 20);
    say(2, 25);
    say(3, 33);
    say(4, 4);
    say(5, 35);
}
