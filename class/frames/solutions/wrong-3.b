/* Wrong: v has an own word before v[0], and v[1] is a word as well. */
/* Told: what is in v: your answer is 11 and not 12 */
answers() {
    say(1, 7);
    say(2, 10);
    say(3, 11);
    say(4, 13);
    say(5, 14);
}
